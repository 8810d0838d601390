/* Communicators as all of their members have them. */
#include "convert.h"

#include <stdlib.h>
#include <string.h>

struct group *group_of(const struct rank *rank, const struct call *call) {
    return call->comm < 0 ? NULL : rank->comms[call->comm].group;
}

int place_in(const struct group *group, int rank) {
    return rank < group->lowest || rank > group->highest ? -1 : group->places[rank - group->lowest];
}

struct group **groups;
int group_count;

/* Of each name and rank the communicator of that name that it belongs to. */
static struct owner {
    const char *name;
    int rank;
    struct group *group;
} *owners;
static size_t owner_room, owner_count;

static struct owner *owner_of(const char *name, int rank) {
    size_t hash = ((size_t)name ^ (size_t)rank * 0x9E3779B97F4A7C15u) * 1099511628211u, at = (hash ^ hash >> 31) % owner_room;
    while (owners[at].name && (owners[at].name != name || owners[at].rank != rank)) at = (at + 1) % owner_room;
    return owners + at;
}

static void make_room_for_owners(int more) {
    if ((owner_count + (size_t)more) * 2 < owner_room) return;
    struct owner *old = owners;
    size_t count = owner_room;
    owner_room = owner_room * 2 + (size_t)more * 4 + 1024;
    owners = zeros(owner_room, sizeof *owners);
    for (size_t i = 0; i < count; i++)
        if (old[i].name) *owner_of(old[i].name, old[i].rank) = old[i];
    free(old);
}

/* NULL where a member is there twice, or belongs to a sibling. */
static struct group *new_group(const char *name, int size, int *members) {
    struct group *group = zeros(1, sizeof *group);
    group->name = name;
    group->size = size;
    group->members = members;
    group->lowest = group->highest = members[0];
    group->rises = 1;
    for (int i = 0; i < size; i++) {
        group->rises &= !i || members[i - 1] < members[i];
        if (members[i] < group->lowest) group->lowest = members[i];
        if (members[i] > group->highest) group->highest = members[i];
    }
    size_t span = (size_t)(group->highest - group->lowest) + 1;
    group->places = room(NULL, sizeof(int) * span);
    memset(group->places, 255, sizeof(int) * span);
    make_room_for_owners(size);
    for (int i = 0; i < size; i++) {
        int *place = group->places + (members[i] - group->lowest);
        struct owner *owner = owner_of(name, members[i]);
        if (*place >= 0 || owner->name) return NULL;
        *place = i;
        *owner = (struct owner){name, members[i], group};
        owner_count++;
    }
    if (!(group_count & (group_count - 1))) groups = room(groups, sizeof *groups * (size_t)(group_count ? group_count * 2 : 1));
    groups[group_count++] = group;
    return group;
}

static const char *const wrong_member = "a communicator has a member that it can't have";

/* The one that the rank has under that name, with these members; or NULL, and what is wrong with it. */
struct group *group_named(const char *name, int rank, int size, int *members, const char **fault) {
    int own = 0;
    for (int i = 0; i < size; i++) {
        if (members[i] >= rank_count) *fault = wrong_member;
        own |= members[i] == rank;
    }
    if (!own) *fault = "a communicator lacks the rank that has it";
    if (*fault) return NULL;
    make_room_for_owners(1);
    struct group *group = owner_of(name, rank)->group;
    if (!group) {
        group = new_group(name, size, members);
        *fault = wrong_member;
        return group;
    }
    *fault = "a communicator has other members than in another rank";
    if (group->size != size || memcmp(group->members, members, sizeof(int) * (size_t)size)) return NULL;
    free(members);
    return group;
}
