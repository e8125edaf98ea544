/* JNI over crew.h: every call by its name, in the one form that crew_form.h gives it (describe form). Slices are copied in, and out where they are
   written. */
#include "crew_form.h"

#include <jni.h>
#include <stdlib.h>
#include <string.h>

enum { MOST_SLICES = 16, MOST_NUMBERS = 16 };

/* the place of a call among the forms, or CREW_FORMS */
static size_t form_of(JNIEnv *env, jstring name) {
    const char *wanted = (*env)->GetStringUTFChars(env, name, NULL);
    size_t place = 0;
    while (wanted != NULL && place < CREW_FORMS && strcmp(crew_forms[place].name, wanted) != 0) {
        place++;
    }
    if (wanted == NULL) {
        return CREW_FORMS;
    }
    (*env)->ReleaseStringUTFChars(env, name, wanted);
    return place;
}

static void complain(JNIEnv *env, const char *what) {
    (*env)->ThrowNew(env, (*env)->FindClass(env, "java/lang/IllegalArgumentException"), what);
}

JNIEXPORT jstring JNICALL Java_crew_Library_numbers(JNIEnv *env, jclass class, jstring name) {
    size_t form = form_of(env, name);
    (void)class;
    return form == CREW_FORMS ? NULL : (*env)->NewStringUTF(env, crew_forms[form].numbers);
}

JNIEXPORT jstring JNICALL Java_crew_Library_refusalText(JNIEnv *env, jclass class, jint number) {
    (void)class;
    return (*env)->NewStringUTF(env, crew_refusal_text((uint8_t)number));
}

JNIEXPORT jstring JNICALL Java_crew_Library_groupText(JNIEnv *env, jclass class, jint number) {
    (void)class;
    return (*env)->NewStringUTF(env, crew_group_text(crew_group((uint8_t)number)));
}

JNIEXPORT jint JNICALL Java_crew_Library_constant(JNIEnv *env, jclass class, jstring name) {
    static const struct {
        const char *name;
        jint is;
    } constants[] = {{"desk", sizeof(struct crew_desk)},
                     {"CREW_DIARY_RECORDS", CREW_DIARY_RECORDS},
                     {"CREW_LEFT_BYTES", CREW_LEFT_BYTES},
                     {"CREW_PLAN_BYTES", CREW_PLAN_BYTES},
                     {"CREW_ROSTER_BYTES", CREW_ROSTER_BYTES},
                     {"CREW_STORED_BYTES", CREW_STORED_BYTES},
                     {"CREW_DAY_BYTES", CREW_DAY_BYTES}};
    const char *wanted = (*env)->GetStringUTFChars(env, name, NULL);
    jint found = -1;
    size_t place;
    (void)class;
    for (place = 0; wanted != NULL && place < sizeof constants / sizeof constants[0]; place++) {
        if (strcmp(constants[place].name, wanted) == 0) {
            found = constants[place].is;
        }
    }
    if (wanted != NULL) {
        (*env)->ReleaseStringUTFChars(env, name, wanted);
    }
    return found;
}

/* a copy of an array; never null, and for an array of no bytes one byte long */
static uint8_t *copied(JNIEnv *env, jbyteArray array, size_t *length) {
    *length = (size_t)(*env)->GetArrayLength(env, array);
    uint8_t *bytes = (uint8_t *)malloc(*length == 0 ? 1 : *length);
    if (bytes != NULL) {
        (*env)->GetByteArrayRegion(env, array, 0, (jsize)*length, (jbyte *)bytes);
    }
    return bytes;
}

JNIEXPORT jlongArray JNICALL Java_crew_Library_made(JNIEnv *env, jclass class, jstring name, jbyteArray held, jint number,
                                                    jobjectArray slices) {
    size_t form = form_of(env, name), given = (size_t)(*env)->GetArrayLength(env, slices), taken = 0, count, i;
    struct crew_slice slice[MOST_SLICES];
    struct crew_desk desk = crew_open();
    int64_t numbers[MOST_NUMBERS];
    jlongArray answer = NULL;
    (void)class;
    if (form == CREW_FORMS || given != crew_forms[form].slices || given > MOST_SLICES) {
        complain(env, "no call of this name with so many slices");
        return NULL;
    }
    if (number < 0 || number > 255 || (held != NULL && (*env)->GetArrayLength(env, held) != (jsize)sizeof desk)) {
        complain(env, "a number that is no byte, or a desk of another size");
        return NULL;
    }
    for (; taken < given; taken++) {
        slice[taken].bytes = copied(env, (jbyteArray)(*env)->GetObjectArrayElement(env, slices, (jsize)taken), &slice[taken].length);
        if (slice[taken].bytes == NULL) {
            complain(env, "no memory for a slice");
            break;
        }
    }
    if (taken == given) {
        if (held != NULL) {
            (*env)->GetByteArrayRegion(env, held, 0, (jsize)sizeof desk, (jbyte *)&desk);
        }
        count = crew_in_one_form(form, &desk, (uint8_t)number, slice, numbers);
        if (held != NULL) {
            (*env)->SetByteArrayRegion(env, held, 0, (jsize)sizeof desk, (const jbyte *)&desk);
        }
        for (i = 0; i < given; i++) {
            if (crew_forms[form].written[i] == 'w') {
                jbyteArray array = (jbyteArray)(*env)->GetObjectArrayElement(env, slices, (jsize)i);
                (*env)->SetByteArrayRegion(env, array, 0, (jsize)slice[i].length, (const jbyte *)slice[i].bytes);
            }
        }
        answer = (*env)->NewLongArray(env, (jsize)count);
        if (answer != NULL) {
            (*env)->SetLongArrayRegion(env, answer, 0, (jsize)count, (const jlong *)numbers);
        }
    }
    while (taken > 0) {
        free(slice[--taken].bytes);
    }
    return answer;
}
