/* Where a call stands in the program: each call site gets a number, and a line of the recording that tells object and offset. */
#define _GNU_SOURCE
#include "recorder.h"

#include <link.h>
#include <stdio.h>
#include <stdlib.h>
#include <string.h>
#include <unistd.h>

struct site {
    void *address;
    int number;  /* 0: in the MPI library, or in this one */
};
static struct site *sites;
static size_t site_room, sites_used;
static int site_count;

static int is_of_the_library(const char *path) {
    static const char *const starts[] = {"libmpi", "librecord", "mca_", "libopen-", "libpmpi", "libc.so", "libc-"};
    const char *base = strrchr(path, '/');
    base = base ? base + 1 : path;
    for (size_t i = 0; i < sizeof starts / sizeof *starts; i++)
        if (!strncmp(base, starts[i], strlen(starts[i]))) return 1;
    return 0;
}

/* Where an address stands in the table, or would. */
static struct site *place_of(void *address) {
    size_t at = ((size_t)address * 0x9E3779B97F4A7C15u) % site_room;
    while (sites[at].address && sites[at].address != address) at = (at + 1) % site_room;
    return sites + at;
}

static void grow(void) {
    struct site *old = sites;
    size_t count = site_room;
    site_room = site_room ? site_room * 2 : 1024;
    sites = room(NULL, site_room * sizeof *sites);
    memset(sites, 0, site_room * sizeof *sites);
    for (size_t i = 0; i < count; i++)
        if (old[i].address) *place_of(old[i].address) = old[i];
    free(old);
}

/* An object that is loaded, and an address in it. The loader has no name of the program itself. */
struct object {
    unsigned long address, base;
    const char *name;
};

static int holds(struct dl_phdr_info *info, size_t size, void *taken) {
    struct object *object = taken;
    (void)size;
    for (int i = 0; i < info->dlpi_phnum; i++) {
        unsigned long from = info->dlpi_addr + info->dlpi_phdr[i].p_vaddr;
        if (info->dlpi_phdr[i].p_type != PT_LOAD || object->address < from || object->address - from >= info->dlpi_phdr[i].p_memsz) continue;
        object->base = info->dlpi_addr;
        object->name = info->dlpi_name;
        return 1;
    }
    return 0;
}

/* The path of the object that was asked for last stays. */
static const char *path_of(const struct object *object) {
    static char path[4096];
    static unsigned long base;
    if (*path && base == object->base) return path;
    base = object->base;
    if (!*object->name) {
        ssize_t n = readlink("/proc/self/exe", path, sizeof path - 1);
        path[n > 0 ? n : 0] = 0;
        return path;
    }
    char *whole = realpath(object->name, NULL);
    snprintf(path, sizeof path, "%s", whole ? whole : object->name);
    free(whole);
    return path;
}

/* Tells a site by a line of its own, and gives its number. The loader is asked for the object alone, since looking for a symbol takes
   its time in large libraries. */
static int tell_site(void *address) {
    struct object object = {.address = (unsigned long)address};
    if (!dl_iterate_phdr(holds, &object) || is_of_the_library(object.name)) return 0;
    char text[4600];
    int n = snprintf(text, sizeof text, "site %d %#lx %s\n", ++site_count, object.address - object.base, path_of(&object));
    write_bytes(text, (size_t)n);
    return site_count;
}

/* The line of the source in place of the offset, and `python:FILE:FUNCTION` in place of the object. */
int tell_python_site(const char *text) {
    char line[4700];
    int n = snprintf(line, sizeof line, "site %d %s\n", ++site_count, text);
    write_bytes(line, (size_t)n);
    return site_count;
}

int site_number(void *address) {
    if (sites_used * 2 >= site_room) grow();
    struct site *site = place_of(address);
    if (!site->address) {
        site->address = address;
        site->number = tell_site(address);
        sites_used++;
    }
    return site->number;
}
