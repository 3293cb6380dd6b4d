/* Calls the library for C as it isn't meant to be called, and looks at the status that it answers and at what it left.
 * It writes a line for each check that fails, and ends with status 1 if one did. cases/library compiles and runs it.
 */
#include "lg_detector.h"

#include <stdio.h>
#include <stdlib.h>
#include <string.h>

/* The heap of the library, which refuses a block when `left` has come to 0. */
struct tried {
    bool ok;
    void *at;
};
struct tried rattle_alloc(size_t size, size_t align);
struct tried rattle_realloc(void *at, size_t kept, size_t size, size_t align);
void rattle_dealloc(void *at);

static int left = -1, blocks;
static char nowhere;

struct tried rattle_alloc(size_t size, size_t align) {
    (void)align;
    if (left == 0) return (struct tried){false, &nowhere};
    left -= left > 0;
    blocks++;
    return (struct tried){true, malloc(size ? size : 1)};
}

struct tried rattle_realloc(void *at, size_t kept, size_t size, size_t align) {
    (void)kept, (void)align;
    return (struct tried){true, realloc(at, size ? size : 1)};
}

void rattle_dealloc(void *at) {
    blocks--;
    free(at);
}

static int failed;

static void check(bool holds, const char *what) {
    if (holds) return;
    printf("FAILED %s\n", what);
    failed = 1;
}

static lg_name name_of(const char *word) {
    lg_name name = {.length = (uint8_t)strlen(word)};
    memcpy(name.bytes, word, strlen(word));
    return name;
}

static lg_detector detector;
static lg_config config;
static lg_reply reply, before;

/* Whether a call answered a status, and left the reply and the detector as they were. */
static bool refused(uint32_t status, uint32_t wanted, bool is_open) {
    return status == wanted && !memcmp(&reply, &before, sizeof reply) && detector.is_open == is_open;
}

static void refuse_null(void) {
    lg_name name = name_of("a");
    lg_address address = {.family = 4};
    uint32_t words[LG_WORDS] = {0};
    uint64_t number;
    check(lg_config_defaults(NULL, &name, &address) == LG_NULL, "defaults of no configuration");
    check(lg_detector_new(NULL, &config, 0, &reply) == LG_NULL, "opens nothing");
    check(lg_detector_heard(&detector, NULL, 3, &address, 0, &reply) == LG_NULL, "hears nothing");
    check(lg_detector_tick(&detector, NULL, 0, &reply) == LG_NULL, "ticks without words");
    check(lg_detector_leave(&detector, words, 0, NULL) == LG_NULL, "leaves without a reply");
    check(lg_detector_members(&detector, NULL, 0, &number) == LG_NULL, "lists into nothing");
    lg_detector_free(NULL);
}

static void refuse_closed(void) {
    uint32_t words[LG_WORDS] = {0};
    uint64_t number = 7;
    lg_record record;
    check(refused(lg_detector_tick(&detector, words, 0, &reply), LG_CLOSED, false), "ticks while closed");
    check(refused(lg_detector_health(&detector, 0, &reply), LG_CLOSED, false), "asks while closed");
    check(lg_detector_members(&detector, &record, 1, &number) == LG_CLOSED && number == 7, "lists while closed");
    check(lg_detector_next(&detector, &number) == LG_CLOSED && number == 7, "asks for a deadline while closed");
    lg_detector_free(&detector);
    check(!detector.is_open, "stays closed");
}

static void refuse_openings(void) {
    lg_config bad = config;
    bad.name.length = 33;
    check(refused(lg_detector_new(&detector, &bad, 0, &reply), LG_BAD_VALUE, false), "a name of 33 bytes");
    bad.name = name_of("a b");
    check(refused(lg_detector_new(&detector, &bad, 0, &reply), LG_BAD_VALUE, false), "a name with a space");
    bad = config;
    bad.address.family = 5;
    check(refused(lg_detector_new(&detector, &bad, 0, &reply), LG_BAD_VALUE, false), "an address of family 5");
    bad = config;
    bad.seeds_count = 17;
    check(refused(lg_detector_new(&detector, &bad, 0, &reply), LG_BAD_VALUE, false), "17 seeds");
    bad.seeds_count = UINT64_MAX;
    check(refused(lg_detector_new(&detector, &bad, 0, &reply), LG_BAD_VALUE, false), "very many seeds");
    bad = config;
    bad.timeout_ms = bad.interval_ms;
    check(refused(lg_detector_new(&detector, &bad, 0, &reply), LG_BAD_CONFIG, false), "a timeout of a whole interval");
    check(refused(lg_detector_new(&detector, &config, 1000000000000001, &reply), LG_BAD_VALUE, false),
          "a moment that is too late");
    for (int granted = 0; granted < 2; granted++) {
        left = granted;
        check(refused(lg_detector_new(&detector, &config, 0, &reply), LG_NO_MEMORY, false), "memory is refused");
    }
    left = -1;
    check(blocks == 0, "what is refused leaves no block");
}

static void refuse_events(void) {
    lg_address source = {.bytes = {127, 0, 0, 1}, .port = 7002, .family = 4};
    uint8_t bytes[2000] = {'S', 'L', 1, 1};
    lg_record record;
    uint64_t number = 0;
    lg_name none = {0};
    check(refused(lg_detector_new(&detector, &config, 0, &reply), LG_OPEN, true), "opens twice");
    check(refused(lg_detector_heard(&detector, bytes, 0, &source, 0, &reply), LG_BAD_PACKET, true), "no bytes");
    check(refused(lg_detector_heard(&detector, bytes, 4, &source, 0, &reply), LG_BAD_PACKET, true), "a part of a packet");
    check(refused(lg_detector_heard(&detector, bytes, 2000, &source, 0, &reply), LG_BAD_PACKET, true), "2,000 bytes");
    source.family = 0;
    check(refused(lg_detector_pull(&detector, &source, 0, &reply), LG_BAD_VALUE, true), "asks no family");
    check(refused(lg_detector_ask(&detector, &none, 0, &reply), LG_BAD_VALUE, true), "asks for no name");
    check(lg_detector_members(&detector, &record, 0, &number) == LG_NO_ROOM && number == 1, "has no room");
    check(lg_detector_members(&detector, &record, 1, &number) == LG_OK && number == 1, "has room");
    check(record.status == LG_ALIVE && record.name.length == 1 && record.name.bytes[0] == 'a', "lists itself");
}

int main(void) {
    lg_name name = name_of("a");
    lg_address address = {.bytes = {127, 0, 0, 1}, .port = 7001, .family = 4};
    memset(&reply, 0x5a, sizeof reply);
    reply.ousted = false;
    memcpy(&before, &reply, sizeof reply);
    check(lg_config_defaults(&config, &name, &address) == LG_OK, "makes a default configuration");
    refuse_null();
    refuse_closed();
    refuse_openings();
    check(lg_detector_new(&detector, &config, 0, &reply) == LG_OK && detector.is_open, "opens");
    memcpy(&before, &reply, sizeof reply);
    refuse_events();
    lg_detector_free(&detector);
    lg_detector_free(&detector);
    check(!detector.is_open && blocks == 0, "frees what it holds, and once");
    return failed;
}
