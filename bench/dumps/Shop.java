import java.util.ArrayDeque;
import java.util.ArrayList;
import java.util.Deque;
import java.util.HashMap;
import java.util.LinkedHashMap;
import java.util.List;
import java.util.Map;
import java.util.TreeMap;

/** A shop with so many customers, for a heap dump: java Shop CUSTOMERS. It says "ready" and waits until its input ends. */
public class Shop {
    static class Customer {
        final String name;
        final List<Order> orders = new ArrayList<>();
        final Map<String, String> settings = new HashMap<>();
        Session session;

        Customer(int number) {
            name = "customer " + number;
            settings.put("language", "language of " + number);
            settings.put("address", "a street and a town, house " + number);
        }
    }

    static class Session {
        final Customer customer;
        final byte[] picture = new byte[1530];

        Session(Customer customer) { this.customer = customer; }
    }

    static class Order {
        final Customer customer;
        final Item[] items = new Item[4];
        final Map<Integer, Long> prices = new TreeMap<>();
        Order before;

        Order(Customer customer, int number) {
            this.customer = customer;
            for (int at = 0; at < items.length; at++) {
                items[at] = new Item(this, "item " + number * at);
                prices.put(1000 + number + at, 1000L * number);
            }
        }
    }

    static class Item {
        final Order order;
        final String text;
        final double[] measures = new double[30];

        Item(Order order, String text) {
            this.order = order;
            this.text = text;
        }
    }

    static final Map<String, Customer> CUSTOMERS = new LinkedHashMap<>();
    static final Deque<Order> OPEN = new ArrayDeque<>();

    public static void main(String[] words) throws Exception {
        Order before = null;
        for (int number = 0; number < Integer.parseInt(words[0]); number++) {
            Customer customer = new Customer(number);
            CUSTOMERS.put(customer.name, customer);
            customer.session = new Session(customer);
            for (int at = 0; at < 3; at++) {
                Order order = new Order(customer, number * 3 + at);
                order.before = before;
                before = order;
                customer.orders.add(order);
                OPEN.add(order);
            }
        }
        System.out.println("ready");
        System.in.read();
        Runtime.getRuntime().halt(0);
    }
}
