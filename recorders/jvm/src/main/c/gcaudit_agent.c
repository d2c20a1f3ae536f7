/*
 * The agent of gcaudit's library for Java. A tag of JVMTI stays with its object wherever the collector moves it, and each
 * environment of JVMTI has tags of its own. The agent tags objects for two purposes:
 *
 * - Regions: it tags the objects that are there when a region begins, so what has no tag, or a later one, when the region ends
 *   was allocated in it.
 * - Numbers: it gives each object a number that no other has, by which the dumps of several checks know it again.
 *
 * The library is loaded by System.load, or by jcmd PID JVMTI.agent_load PATH. While no region is open and nobody needs numbers
 * there is no environment of JVMTI, so nothing is tagged and a collection takes no longer.
 */
#include <jni.h>
#include <jvmti.h>
#include <limits.h>
#include <stddef.h>
#include <stdint.h>
#include <stdlib.h>

#define FOUND (INT64_C(1) << 40) /* added to the tag of an object that was allocated in the region that ends */

static JavaVM *vm;
static jvmtiEnv *jvmti;     /* while a region is open */
static jlong last_epoch;    /* the tag that the youngest region gave */
static int open_regions;

static jvmtiEnv *numbering; /* while an audit needs numbers */
static jlong last_number;
static int numbering_audits;

static void fail(JNIEnv *jni, const char *why) {
    jclass error = (*jni)->FindClass(jni, "gcaudit/HeapAuditException");
    if (error != NULL) {
        (*jni)->ThrowNew(jni, error, why);
    }
}

static jint JNICALL tag_untagged(jlong class_tag, jlong size, jlong *tag, jint length, void *epoch) {
    (void) class_tag, (void) size, (void) length;
    *tag = *(jlong *) epoch;
    return JVMTI_VISIT_OBJECTS;
}

struct search {
    jlong epoch;
    jlong found;
};

static jint JNICALL mark_young(jlong class_tag, jlong size, jlong *tag, jint length, void *data) {
    struct search *search = data;
    (void) class_tag, (void) size, (void) length;
    if (*tag == 0 || *tag > search->epoch) {
        *tag += FOUND;
        search->found++;
    }
    return JVMTI_VISIT_OBJECTS;
}

static jint JNICALL unmark(jlong class_tag, jlong size, jlong *tag, jint length, void *data) {
    (void) class_tag, (void) size, (void) length, (void) data;
    if (*tag >= FOUND) {
        *tag -= FOUND;
    }
    return JVMTI_VISIT_OBJECTS;
}

/*
 * Visits each object. HotSpot visits also the filler at the end of a thread's buffer of free memory, and the next object that
 * the thread allocates has the filler's place, and would have its tag. So a collection comes behind: it ends the fillers and
 * their tags, and takes the buffers away. The collection before it leaves less to be visited.
 */
static int iterate(jvmtiEnv *env, jint filter, jvmtiHeapIterationCallback visit, void *data) {
    jvmtiHeapCallbacks callbacks = {0};
    callbacks.heap_iteration_callback = visit;
    return (*env)->ForceGarbageCollection(env) == JVMTI_ERROR_NONE
        && (*env)->IterateThroughHeap(env, filter, NULL, &callbacks, data) == JVMTI_ERROR_NONE
        && (*env)->ForceGarbageCollection(env) == JVMTI_ERROR_NONE;
}

/* An environment that may tag objects; NULL where this JVM allows none. Without the environment all its tags are gone at once. */
static jvmtiEnv *new_tagging(void) {
    jvmtiCapabilities wanted = {0};
    jvmtiEnv *env = NULL;
    wanted.can_tag_objects = 1;
    if ((*vm)->GetEnv(vm, (void **) &env, JVMTI_VERSION_1_2) != JNI_OK) {
        return NULL;
    }
    if ((*env)->AddCapabilities(env, &wanted) != JVMTI_ERROR_NONE) {
        (*env)->DisposeEnvironment(env);
        return NULL;
    }
    return env;
}

static void end_tagging(void) {
    if (jvmti != NULL) {
        (*jvmti)->DisposeEnvironment(jvmti);
        jvmti = NULL;
    }
    last_epoch = 0;
}

JNIEXPORT jlong JNICALL Java_gcaudit_Agent_beginRegion(JNIEnv *jni, jclass agent) {
    jlong epoch;
    (void) agent;
    if (open_regions == 0 && (jvmti = new_tagging()) == NULL) {
        end_tagging();
        fail(jni, "this JVM doesn't let objects be tagged");
        return 0;
    }
    epoch = ++last_epoch;
    if (!iterate(jvmti, JVMTI_HEAP_FILTER_TAGGED, tag_untagged, &epoch)) {
        if (open_regions == 0) {
            end_tagging();
        }
        fail(jni, "the objects could not be tagged");
        return 0;
    }
    open_regions++;
    return epoch;
}

/*
 * The objects of an environment with these tags, as an array; `most` is how many there may be. Each is a local reference for a
 * while. HotSpot makes as many as there are; only EnsureLocalCapacity refuses more than 65,536, so it isn't asked.
 */
static jobjectArray tagged_objects(JNIEnv *jni, jvmtiEnv *env, const jlong *wanted, jint tags, jlong most) {
    jint count = 0, at;
    jobject *objects = NULL;
    jobjectArray array = NULL;
    jclass object = (*jni)->FindClass(jni, "java/lang/Object");
    if (object == NULL || most > INT_MAX / 2) {
        fail(jni, "there is no room for so many objects");
        return NULL;
    }
    if ((*env)->GetObjectsWithTags(env, tags, wanted, &count, &objects, NULL) != JVMTI_ERROR_NONE) {
        fail(jni, "the tagged objects could not be found");
        return NULL;
    }
    array = (*jni)->NewObjectArray(jni, count, object, NULL);
    for (at = 0; at < count; at++) {
        if (array != NULL) {
            (*jni)->SetObjectArrayElement(jni, array, at, objects[at]);
        }
        (*jni)->DeleteLocalRef(jni, objects[at]);
    }
    (*env)->Deallocate(env, (unsigned char *) objects);
    return array;
}

/* The objects whose tags say that they were found. */
static jobjectArray found_objects(JNIEnv *jni, jlong epoch, jlong found) {
    jobjectArray array;
    jint tags = 0;
    jlong *wanted = malloc(sizeof(jlong) * (size_t) (last_epoch - epoch + 1));
    if (wanted == NULL) {
        fail(jni, "there is no room for the objects of the region");
        return NULL;
    }
    wanted[tags++] = FOUND;
    for (jlong later = epoch + 1; later <= last_epoch; later++) {
        wanted[tags++] = FOUND + later;
    }
    array = tagged_objects(jni, jvmti, wanted, tags, found);
    free(wanted);
    return array;
}

JNIEXPORT jobjectArray JNICALL Java_gcaudit_Agent_endRegion(JNIEnv *jni, jclass agent, jlong epoch) {
    struct search search = {epoch, 0};
    jobjectArray array = NULL;
    (void) agent;
    if (jvmti == NULL) {
        fail(jni, "no region is open");
        return NULL;
    }
    if (iterate(jvmti, 0, mark_young, &search)) {
        array = found_objects(jni, epoch, search.found);
    } else {
        fail(jni, "the heap could not be looked through");
    }
    if (--open_regions == 0) {
        end_tagging();
    } else if (!iterate(jvmti, JVMTI_HEAP_FILTER_UNTAGGED, unmark, NULL)) {
        fail(jni, "the tags of the region could not be taken away");
    }
    return array;
}

JNIEXPORT void JNICALL Java_gcaudit_Agent_beginNumbering(JNIEnv *jni, jclass agent) {
    (void) agent;
    if (numbering_audits == 0 && (numbering = new_tagging()) == NULL) {
        fail(jni, "this JVM doesn't let objects be tagged");
        return;
    }
    numbering_audits++;
}

JNIEXPORT void JNICALL Java_gcaudit_Agent_endNumbering(JNIEnv *jni, jclass agent) {
    (void) jni, (void) agent;
    if (--numbering_audits == 0) {
        (*numbering)->DisposeEnvironment(numbering);
        numbering = NULL;
    }
}

static jint JNICALL count_and_tag(jlong class_tag, jlong size, jlong *tag, jint length, void *count) {
    (void) class_tag, (void) size, (void) length;
    *tag = 1;
    ++*(jlong *) count;
    return JVMTI_VISIT_OBJECTS;
}

/* All objects that are there, as an array. They are found by an equal tag, since a search for tags looks at each object once for each tag. */
JNIEXPORT jobjectArray JNICALL Java_gcaudit_Agent_findObjects(JNIEnv *jni, jclass agent) {
    static const jlong wanted = 1;
    jlong count = 0;
    jobjectArray array = NULL;
    jvmtiEnv *env = new_tagging();
    (void) agent;
    if (env != NULL && iterate(env, 0, count_and_tag, &count)) {
        array = tagged_objects(jni, env, &wanted, 1, count);
    } else {
        fail(jni, "the heap could not be looked through");
    }
    if (env != NULL) {
        (*env)->DisposeEnvironment(env);
    }
    return array;
}

/* The number of each object of an array; one that has none gets the next. */
JNIEXPORT jlongArray JNICALL Java_gcaudit_Agent_findNumbers(JNIEnv *jni, jclass agent, jobjectArray objects) {
    jsize length = (*jni)->GetArrayLength(jni, objects);
    jlongArray array = (*jni)->NewLongArray(jni, length);
    (void) agent;
    for (jsize at = 0; array != NULL && at < length; at++) {
        jobject object = (*jni)->GetObjectArrayElement(jni, objects, at);
        jlong number = 0;
        if ((*numbering)->GetTag(numbering, object, &number) == JVMTI_ERROR_NONE && number == 0) {
            number = ++last_number;
            if ((*numbering)->SetTag(numbering, object, number) != JVMTI_ERROR_NONE) {
                number = 0;
            }
        }
        (*jni)->DeleteLocalRef(jni, object);
        (*jni)->SetLongArrayRegion(jni, array, at, 1, &number);
        if (number == 0) {
            fail(jni, "an object could not be numbered");
            return NULL;
        }
    }
    return array;
}

JNIEXPORT jint JNICALL JNI_OnLoad(JavaVM *loaded, void *reserved) {
    (void) reserved;
    vm = loaded;
    return JNI_VERSION_1_8;
}

JNIEXPORT jint JNICALL Agent_OnLoad(JavaVM *loaded, char *options, void *reserved) {
    (void) options, (void) reserved;
    vm = loaded;
    return JNI_OK;
}

JNIEXPORT jint JNICALL Agent_OnAttach(JavaVM *loaded, char *options, void *reserved) {
    (void) options, (void) reserved;
    vm = loaded;
    return JNI_OK;
}
