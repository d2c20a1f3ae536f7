"""An HTTP service with sessions, whose event bus may keep the listeners of sessions that ended."""
import http.server
import threading
import urllib.request


class EventBus:
    def __init__(self):
        self.listeners = []

    def publish(self, event):
        for listener in list(self.listeners):
            listener(event)


class Session:
    def __init__(self, name, bus):
        self.name = name
        self.bus = bus
        self.seen = []
        bus.listeners.append(self.on_event)

    def on_event(self, event):
        self.seen.append(event)


class Service(http.server.ThreadingHTTPServer):
    daemon_threads = False

    def __init__(self, keeps_listeners):
        super().__init__(("127.0.0.1", 0), Handler)
        self.keeps_listeners = keeps_listeners
        self.bus = EventBus()
        self.sessions = {}
        self.ended = lambda session: None

    def login(self, name):
        self.sessions[name] = Session(name, self.bus)

    def logout(self, name):
        session = self.sessions.pop(name)
        if not self.keeps_listeners:
            self.bus.listeners.remove(session.on_event)
        self.ended(session)


class Handler(http.server.BaseHTTPRequestHandler):
    def do_GET(self):
        action, name = self.path.strip("/").split("/")
        getattr(self.server, action)(name)
        self.server.bus.publish(action)
        self.send_response(204)
        self.end_headers()

    def log_message(self, *words):
        pass


def serve_a_day(service):
    """Two visitors come, and one of them leaves."""
    thread = threading.Thread(target=service.serve_forever, kwargs={"poll_interval": 0.02})
    thread.start()
    opener = urllib.request.build_opener(urllib.request.ProxyHandler({}))
    try:
        for request in ("login/ada", "login/bob", "logout/ada"):
            opener.open("http://127.0.0.1:%d/%s" % (service.server_address[1], request), timeout=30).close()
    finally:
        service.shutdown()
        service.server_close()
        thread.join()
