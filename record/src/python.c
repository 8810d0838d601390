/* The frames of Python that led to a call, where the process is a Python interpreter: there the call sites of the interpreter tell
   nothing. Its functions are looked up by name, so nothing is linked. */
#define _GNU_SOURCE
#include "recorder.h"

#include <dlfcn.h>
#include <stdio.h>
#include <stdlib.h>
#include <string.h>

static struct {
    int (*is_up)(void), (*take_lock)(void), (*line_of)(void *);
    void (*give_lock)(int), (*drop)(void *);
    void *(*frame)(void), *(*back_of)(void *), *(*code_of)(void *), *(*attribute)(void *, const char *);
    const char *(*text_of)(void *);
} python;

static const struct {
    const char *name;
    void *place;
} functions[] = {{"Py_IsInitialized", &python.is_up},          {"PyGILState_Ensure", &python.take_lock},
                 {"PyGILState_Release", &python.give_lock},    {"PyEval_GetFrame", &python.frame},
                 {"PyFrame_GetBack", &python.back_of},         {"PyFrame_GetCode", &python.code_of},
                 {"PyFrame_GetLineNumber", &python.line_of},   {"PyObject_GetAttrString", &python.attribute},
                 {"PyUnicode_AsUTF8", &python.text_of},        {"Py_DecRef", &python.drop}};

/* Whether there is an interpreter, of a version that has all of them. */
static int is_python(void) {
    static int found = -1;
    if (found < 0) {
        found = 1;
        for (size_t i = 0; i < sizeof functions / sizeof *functions; i++) {
            void *function = dlsym(RTLD_DEFAULT, functions[i].name);
            memcpy(functions[i].place, &function, sizeof function);
            found &= function != NULL;
        }
    }
    return found && python.is_up();
}

/* Few different ones come again and again. */
static int number_of(const char *text) {
    static struct known {
        char *text;
        int number;
    } *all;
    static int count;
    for (int i = count; i-- > 0;)
        if (!strcmp(all[i].text, text)) return all[i].number;
    all = room(all, sizeof *all * (size_t)(count + 1));
    all[count] = (struct known){strcpy(room(NULL, strlen(text) + 1), text), tell_python_site(text)};
    return all[count++].number;
}

static int number_of_frame(void *frame) {
    char text[4600];
    void *code = python.code_of(frame), *file = python.attribute(code, "co_filename"), *name = python.attribute(code, "co_name");
    const char *path = file ? python.text_of(file) : NULL, *function = name ? python.text_of(name) : NULL;
    snprintf(text, sizeof text, "%#x python:%s:%s", (unsigned)python.line_of(frame), path ? path : "?", function ? function : "?");
    for (char *c = text; *c; c++)
        if ((unsigned char)*c < ' ') *c = '?';
    if (file) python.drop(file);
    if (name) python.drop(name);
    python.drop(code);
    return number_of(text);
}

/* mpi4py has let go of the interpreter's lock in calls of MPI. */
int python_sites(int *numbers, int most) {
    if (!is_python()) return 0;
    int count = 0, lock = python.take_lock();
    void *held = NULL;
    for (void *frame = python.frame(); frame && count < most;) {
        numbers[count++] = number_of_frame(frame);
        void *back = python.back_of(frame);
        if (held) python.drop(held);
        held = frame = back;
    }
    if (held) python.drop(held);
    python.give_lock(lock);
    return count;
}
