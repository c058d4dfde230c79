/* Lists of an answer: where their items stand in its line, which is read once from the first to the
   last. What stands in an item the library says, of a line that has that item alone. */
#define _POSIX_C_SOURCE 200809L
#include "metsuwan_internal.h"

#include <stdlib.h>
#include <string.h>

/* A list in a line: an array of JSON, or another value, which is then the one item; and of a tree
   the tag of the items of that array which are meant. */
typedef struct {
    const char *at;
    kmip_span tag;
} list_place;

struct kmip_list {
    kmip_room text, line, value; /* the list, the line of an item, and what was read of it */
    kmip_items left;
    kmip_span item; /* that at hand */
};

/* What stands in front of the next dot of a path, which is then what stands behind it; false at its
   end. */
static bool next_name(kmip_span *path, kmip_span *name) {
    if (!path->at) return false;
    const char *dot = path->length > 0 ? memchr(path->at, '.', path->length) : NULL;
    *name = (kmip_span){path->at, dot ? (size_t)(dot - path->at) : path->length};
    *path = dot ? (kmip_span){dot + 1, path->length - name->length - 1} : (kmip_span){NULL, 0};
    return true;
}

/* Whether a name is an index in decimal digits, as kmip_value takes one. */
static bool is_index(kmip_span name, size_t *index) {
    if (name.length < 1 || name.length > 9 || (name.length > 1 && *name.at == '0')) return false;
    *index = 0;
    for (size_t i = 0; i < name.length; i++) {
        if (name.at[i] < '0' || name.at[i] > '9') return false;
        *index = 10 * *index + (size_t)(name.at[i] - '0');
    }
    return true;
}

static kmip_items items_of(list_place list) {
    bool is_array = *list.at == '[';
    bool is_empty = is_array && list.at[1] == ']';
    return (kmip_items){is_empty ? NULL : list.at + is_array, !is_array, list.tag};
}

/* Whether an item of a tree has this tag. */
static bool has_tag(kmip_span item, kmip_span tag) {
    const char *own = kmip_member(item.at, "tag");
    return own && *own == '"' && strncmp(own + 1, tag.at, tag.length) == 0 &&
           own[tag.length + 1] == '"';
}

/* Goes to the next item; false where there is none. */
static bool next_item(kmip_items *left, kmip_span *item) {
    while (left->next) {
        const char *end = kmip_past_value(left->next);
        *item = (kmip_span){left->next, (size_t)(end - left->next)};
        left->next = *end == ',' && !left->is_alone ? end + 1 : NULL;
        if (!left->tag.at || has_tag(*item, left->tag)) return true;
    }
    return false;
}

/* The item at a place of a list. */
static bool item_at(list_place list, size_t index, kmip_span *item) {
    kmip_items left = items_of(list);
    for (size_t i = 0; i <= index; i++)
        if (!next_item(&left, item)) return false;
    return true;
}

/* The items with the tag at the end of a path of tags below a structure; false: there is no such
   structure, or at the end is an index, and so one item. */
static bool find_in_tree(const char *tree, kmip_span path, list_place *into) {
    kmip_span name, item = {tree, 0};
    size_t index = 0;
    *into = (list_place){NULL, {NULL, 0}};
    while (next_name(&path, &name)) {
        bool is_place = into->at && is_index(name, &index);
        if (is_place && !next_name(&path, &name)) return false;
        if (into->at && !item_at(*into, is_place ? index : 0, &item)) return false;
        *into = (list_place){kmip_member(item.at, "value"), name};
        if (!into->at || *into->at != '[') return false;
    }
    return into->at != NULL;
}

/* The value at a path of names below a value; false: there is none. */
static bool find_value(const char *value, kmip_span path, list_place *into) {
    kmip_span name, item = {NULL, 0};
    size_t index;
    *into = (list_place){value, {NULL, 0}};
    while (into->at && next_name(&path, &name)) {
        bool is_array = *into->at == '[';
        if (!is_array)
            into->at = kmip_member_named(into->at, name);
        else
            into->at = is_index(name, &index) && item_at(*into, index, &item) ? item.at : NULL;
    }
    return into->at != NULL;
}

/* The list at a path of the answer of a line; false: there is none. */
static bool find_list(const char *line, kmip_span path, list_place *into) {
    const char *answer = kmip_member(line, "answer");
    if (kmip_is_tree(line)) return find_in_tree(answer, path, into);
    return answer && find_value(answer, path, into);
}

/* Copies bytes, and is the end of the copy. */
static char *put(char *at, kmip_span part) {
    if (part.length > 0) memcpy(at, part.at, part.length);
    return at + part.length;
}

/* Writes the value at a path of an item, as kmip_value_of does: the item itself where the path has
   no bytes. The line with the item alone is written to `room`, and behind it the path there. */
static int64_t value_of_item(kmip_room *room, kmip_span tag, kmip_span item, kmip_span path,
                             bool hex, kmip_room *into) {
    static const char object[] = "{\"answer\":{\"v\":", object_end[] = "}}",
                      tree[] = "{\"answer\":{\"tag\":\"ResponsePayload\",\"value\":[",
                      tree_end[] = "]}}";
    size_t most = sizeof tree + item.length + sizeof tree_end + tag.length + path.length + 4;
    if (!kmip_room_has(room, most)) return -1;
    char *line = (char *)room->bytes;
    char *at = put(stpcpy(line, tag.at ? tree : object), item);
    char *whole = stpcpy(at, tag.at ? tree_end : object_end) + 1;
    /* (in a tree what comes next could be an index, too) */
    at = tag.at ? stpcpy(put(whole, tag), ".0") : stpcpy(whole, "v");
    if (path.length > 0) at = put(stpcpy(at, "."), path);
    *at = 0;
    return kmip_value_of(line, whole, hex, into);
}

/* Parts a path at its first index behind a name: the path of the list, the index, and what stands
   behind that; false where it has none. */
static bool part_path(const char *path, kmip_span *list, size_t *index, kmip_span *rest) {
    kmip_span name;
    *rest = (kmip_span){path, strlen(path)};
    while (next_name(rest, &name)) {
        if (name.at == path || !is_index(name, index)) continue;
        *list = (kmip_span){path, (size_t)(name.at - path) - 1};
        return !rest->at || rest->length > 0;
    }
    return false;
}

/* Begins with the first item of a list of the last answer. */
static bool begin_walk(kmip_client *client, kmip_span list) {
    kmip_walk *walk = &client->walk;
    list_place place;
    walk->item.at = NULL;
    if (list.length >= sizeof walk->list) return false;
    memcpy(walk->list, list.at, list.length);
    walk->list[list.length] = 0;
    walk->index = 0;
    /* (the tag is kept as the walk's own) */
    if (!find_list(kmip_line(client), (kmip_span){walk->list, list.length}, &place)) return false;
    if (*place.at != '[') return false;
    walk->left = items_of(place);
    return next_item(&walk->left, &walk->item) || (walk->item.at = NULL);
}

/* Goes to the item at a place of a list of the last answer: from the item before, where that is of
   the same list, and no later one. */
static bool walk_to(kmip_client *client, kmip_span list, size_t index) {
    kmip_walk *walk = &client->walk;
    bool goes_on = walk->item.at && walk->index <= index && strlen(walk->list) == list.length &&
                   memcmp(walk->list, list.at, list.length) == 0;
    if (!goes_on && !begin_walk(client, list)) return false;
    while (walk->index < index && next_item(&walk->left, &walk->item))
        walk->index++;
    if (walk->index == index) return true;
    walk->item.at = NULL;
    return false;
}

int64_t kmip_value_at(kmip_client *client, const char *path, bool hex) {
    kmip_span list, rest;
    size_t index;
    if (part_path(path, &list, &index, &rest) && walk_to(client, list, index))
        return value_of_item(&client->item, client->walk.left.tag, client->walk.item, rest, hex,
                             &client->value);
    return kmip_value_of(kmip_line(client), path, hex, &client->value);
}

size_t kmip_count(kmip_client *client, const char *path) {
    list_place place;
    kmip_span item;
    size_t count = 0;
    if (!client || client->status != KMIP_ANSWERED || !path) return 0;
    if (!find_list(kmip_line(client), (kmip_span){path, strlen(path)}, &place)) return 0;
    for (kmip_items left = items_of(place); next_item(&left, &item);)
        count++;
    return count;
}

/* Keeps a copy of a list, and of its tag behind it; false where memory runs out. */
static bool keep_list(kmip_list *list, list_place place) {
    size_t length = (size_t)(kmip_past_value(place.at) - place.at);
    if (!kmip_room_has(&list->text, length + place.tag.length + 2)) return false;
    char *text = (char *)list->text.bytes, *tag = text + length + 1;
    memcpy(text, place.at, length);
    text[length] = 0;
    if (place.tag.at) memcpy(tag, place.tag.at, place.tag.length);
    tag[place.tag.length] = 0;
    kmip_span own = {place.tag.at ? tag : NULL, place.tag.length};
    list->left = items_of((list_place){text, own});
    return true;
}

kmip_list *kmip_list_new(kmip_client *client, const char *path) {
    list_place place;
    if (!client || client->status != KMIP_ANSWERED || !path) return NULL;
    kmip_list *list = calloc(1, sizeof *list);
    if (!list || !find_list(kmip_line(client), (kmip_span){path, strlen(path)}, &place))
        return list;
    if (keep_list(list, place)) return list;
    kmip_list_free(list);
    return NULL;
}

bool kmip_list_next(kmip_list *list) {
    if (!list) return false;
    if (next_item(&list->left, &list->item)) return true;
    list->item.at = NULL;
    return false;
}

/* Writes the value at a path of the item at hand; its length, or -1. */
static int64_t value_at_hand(kmip_list *list, const char *path, bool hex) {
    if (!list || !list->item.at) return -1;
    kmip_span below = path ? (kmip_span){path, strlen(path)} : (kmip_span){"", 0};
    return value_of_item(&list->line, list->left.tag, list->item, below, hex, &list->value);
}

const uint8_t *kmip_list_bytes(kmip_list *list, const char *path, size_t *length) {
    int64_t found = value_at_hand(list, path, true);
    if (found < 0) return NULL;
    if (length) *length = (size_t)found;
    return list->value.bytes;
}

const char *kmip_list_text(kmip_list *list, const char *path, size_t *length) {
    int64_t found = value_at_hand(list, path, false);
    return found < 0 ? NULL : kmip_text_of(&list->value, (size_t)found, length);
}

void kmip_list_free(kmip_list *list) {
    if (!list) return;
    kmip_room_free(&list->text);
    kmip_room_free(&list->line);
    kmip_room_free(&list->value);
    free(list);
}
