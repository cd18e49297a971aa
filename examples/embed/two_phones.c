/* Two phones keep one shopping list, each with a peer of its own. The network is this program's own, and loses a frame.
 * build.sh builds it; expected.txt has what it prints. */
#include "munsikap_peer.h"

#include <stdio.h>
#include <stdlib.h>
#include <string.h>

static const char list[] = "awset:list";

/* Ends the program where a call answers another code than the one that has to come. */
static void expect(int32_t wanted, int32_t code, const char *call) {
    if (code != wanted) {
        fprintf(stderr, "%s answered %d\n", call, (int)code);
        exit(1);
    }
}

/* Does an operation at a phone, and gives its frame's length. */
static size_t update(struct munsikap_peer *phone, const char *text, uint8_t *frame) {
    size_t count = 0;
    expect(MUNSIKAP_DONE, munsikap_update(phone, (const uint8_t *)text, strlen(text), frame, MUNSIKAP_MOST_FRAME, &count), "update");
    return count;
}

/* Brings a frame to a phone, and prints what comes of it. */
static void bring(const char *what, const uint8_t *frame, size_t length, const char *name, struct munsikap_peer *phone) {
    size_t delivered = 0, steps = 0;
    int32_t code = munsikap_hear(phone, frame, length, &delivered, &steps);
    printf("%s: ", what);
    if (code == MUNSIKAP_DONE)
        printf("%s takes %zu\n", name, delivered);
    else if (code == MUNSIKAP_KEPT)
        printf("%s keeps it, since an earlier one is missing\n", name);
    else if (code == MUNSIKAP_OLD)
        printf("%s has it\n", name);
    else
        printf("%s answers %d\n", name, (int)code);
}

/* Prints what a phone has on the list. The first call says how much room the line needs. */
static void show(const char *name, struct munsikap_peer *phone) {
    uint8_t none[1];
    size_t count = 0;
    expect(MUNSIKAP_NO_ROOM, munsikap_ask(phone, (const uint8_t *)list, strlen(list), none, sizeof none, &count), "ask");
    uint8_t *line = malloc(count);
    if (line == NULL)
        exit(1);
    expect(MUNSIKAP_DONE, munsikap_ask(phone, (const uint8_t *)list, strlen(list), line, count, &count), "ask");
    printf("%s %.*s", name, (int)count, (const char *)line);
    free(line);
}

/* Prints how many of a member's messages a phone has, and how many all are known there to have. */
static void show_counts(const char *name, struct munsikap_peer *phone, uint8_t member) {
    uint32_t seen = 0, stable = 0;
    expect(MUNSIKAP_DONE, munsikap_seen(phone, member, &seen), "seen");
    expect(MUNSIKAP_DONE, munsikap_stable(phone, member, &stable), "stable");
    printf("%s has %u of member %u, and all have %u\n", name, (unsigned)seen, (unsigned)member, (unsigned)stable);
}

/* Sends again what isn't known to be everywhere. */
static void send_again(struct munsikap_peer *from, const char *name, struct munsikap_peer *to) {
    uint8_t frame[MUNSIKAP_MOST_FRAME];
    size_t count = 0;
    int32_t code;
    for (size_t place = 0; (code = munsikap_frame(from, place, frame, sizeof frame, &count)) == MUNSIKAP_DONE; place++) {
        char what[40];
        snprintf(what, sizeof what, "sent again, frame %zu", place);
        bring(what, frame, count, name, to);
    }
    expect(MUNSIKAP_NO_FRAME, code, "frame");
}

int main(void) {
    struct munsikap_peer ann = MUNSIKAP_EMPTY, ben = MUNSIKAP_EMPTY;
    uint8_t frame[MUNSIKAP_MOST_FRAME];
    size_t count = 0;
    expect(MUNSIKAP_DONE, munsikap_create(&ann, 0, 2, 8, 10000), "create");
    expect(MUNSIKAP_DONE, munsikap_create(&ben, 1, 2, 8, 10000), "create");

    update(&ann, "awset:list add bread", frame);
    printf("Ann adds bread: the frame is lost\n");
    bring("Ann adds milk", frame, update(&ann, "awset:list add milk", frame), "Ben", &ben);
    bring("Ben adds eggs", frame, update(&ben, "awset:list add eggs", frame), "Ann", &ann);
    show("Ann", &ann);
    show("Ben", &ben);

    send_again(&ann, "Ben", &ben);
    expect(MUNSIKAP_DONE, munsikap_beat(&ben, frame, sizeof frame, &count), "beat");
    bring("Ben beats", frame, count, "Ann", &ann);
    show("Ann", &ann);
    show("Ben", &ben);
    show_counts("Ann", &ann, 0);
    show_counts("Ben", &ben, 1);

    bring("bytes that are no frame", (const uint8_t *)"?", 1, "Ann", &ann);
    expect(MUNSIKAP_BAD_TEXT + 6, munsikap_update(&ann, (const uint8_t *)"awset:list inc 1", 16, frame, sizeof frame, &count), "update");
    munsikap_free(&ann);
    munsikap_free(&ben);
    expect(MUNSIKAP_NO_PEER, munsikap_beat(&ann, frame, sizeof frame, &count), "beat");
    return 0;
}
