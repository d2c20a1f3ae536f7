/* References of native code for ServiceLeaks.java and Holders.java. */
#include <jni.h>
#include <stdint.h>

static jlong new_global(JNIEnv *jni, jobject object) {
    return (jlong) (intptr_t) (*jni)->NewGlobalRef(jni, object);
}

static void delete_global(JNIEnv *jni, jlong reference) {
    (*jni)->DeleteGlobalRef(jni, (jobject) (intptr_t) reference);
}

JNIEXPORT jlong JNICALL Java_ServiceLeaks_newGlobal(JNIEnv *jni, jclass caller, jobject object) {
    (void) caller;
    return new_global(jni, object);
}

JNIEXPORT void JNICALL Java_ServiceLeaks_deleteGlobal(JNIEnv *jni, jclass caller, jlong reference) {
    (void) caller;
    delete_global(jni, reference);
}

JNIEXPORT jlong JNICALL Java_Holders_newGlobal(JNIEnv *jni, jclass caller, jobject object) {
    (void) caller;
    return new_global(jni, object);
}

JNIEXPORT void JNICALL Java_Holders_deleteGlobal(JNIEnv *jni, jclass caller, jlong reference) {
    (void) caller;
    delete_global(jni, reference);
}
