/* Plays a script of `lg sim` by the library, and prints what `lg sim` prints: the members of a group, each with its
 * detector, and the datagrams between them. Each line of the script is one call. docs/FORMATS.md has the form of
 * scripts and of what is printed.
 *
 *     example < examples/death.sim
 */
#include "lg_detector.h"

#include <inttypes.h>
#include <stdio.h>
#include <stdlib.h>
#include <string.h>

enum { MOST_MEMBERS = 16, MOST_PARTS = 24, MOST_LINE = 4096 };

struct member {
    lg_name name;
    lg_address address;
    lg_detector detector;
};

struct sent {
    lg_address from;
    lg_send send;
};

/* What a run holds. */
static lg_config settings;
static struct member members[MOST_MEMBERS];
static size_t members_count;
static struct sent *sent;
static size_t sent_count;
static lg_reply reply;

static void stop(const char *why) {
    fprintf(stderr, "example: %s\n", why);
    exit(3);
}

static lg_name name_of(const char *word) {
    lg_name name = {0};
    size_t length = strlen(word);
    if (length > LG_MOST_NAME) stop("a name is too long");
    memcpy(name.bytes, word, length);
    name.length = (uint8_t)length;
    return name;
}

static lg_address address_of(const char *port) {
    lg_address address = {.bytes = {127, 0, 0, 1}, .port = (uint16_t)strtoul(port, NULL, 10), .family = 4};
    return address;
}

static struct member *member_named(const char *word) {
    lg_name name = name_of(word);
    for (size_t at = 0; at < members_count; at++)
        if (!memcmp(&members[at].name, &name, sizeof name)) return &members[at];
    stop("no such member");
    return NULL;
}

/* The members are at 127.0.0.1, each at its own port. */
static struct member *member_at(const lg_address *address) {
    for (size_t at = 0; at < members_count; at++)
        if (members[at].address.port == address->port) return &members[at];
    return NULL;
}

static void print_name(const lg_name *name) {
    printf("%.*s", name->length, (const char *)name->bytes);
}

static void print_address(const lg_address *to) {
    printf("%d.%d.%d.%d:%d", to->bytes[0], to->bytes[1], to->bytes[2], to->bytes[3], to->port);
}

static void print_record(const lg_record *record) {
    static const char *const words[] = {"", "alive", "suspect", "failed", "left"};
    print_name(&record->name);
    printf(" %s %" PRIu32 " ", words[record->status], record->incarnation);
    print_address(&record->address);
    if (record->status == LG_SUSPECT) {
        printf(" by ");
        print_name(&record->accuser);
    }
    printf("\n");
}

static void print_fired(const lg_fired *fired) {
    static const char *const words[] = {"",          "round-end",   "suspicion", "direct", "relay-nack",
                                        "relay-end", "round-start", "forget",    "gossip"};
    if (fired->kind == LG_NOTHING_FIRED) {
        printf("idle\n");
        return;
    }
    printf("fired %s", words[fired->kind]);
    if (fired->kind == LG_SUSPICION || fired->kind == LG_FORGET) {
        printf(" ");
        print_name(&fired->name);
    }
    if (fired->kind == LG_RELAY_NACK || fired->kind == LG_RELAY_END) printf(" %" PRIu32, fired->number);
    printf("\n");
}

static void print_answer(const lg_answer *answer) {
    if (answer->kind == LG_UNKNOWN) printf("answer none\n");
    if (answer->kind == LG_RECORD) {
        printf("answer ");
        print_record(&answer->record);
    }
    if (answer->kind == LG_HEALTH)
        printf("answer score %" PRIu64 " number %" PRIu32 " members %" PRIu64 "\n", answer->score, answer->incarnation,
               answer->members);
}

/* Keeps a datagram that a member sends, and prints it with its number. */
static void keep(const struct member *from, const lg_send *send) {
    sent = realloc(sent, (sent_count + 1) * sizeof *sent);
    if (!sent) stop("no memory");
    sent[sent_count] = (struct sent){from->address, *send};
    sent_count++;
    printf("send %zu ", sent_count);
    print_address(&send->to);
    printf(" ");
    for (uint32_t at = 0; at < send->length; at++) printf("%02x", send->bytes[at]);
    printf("\n");
}

/* Prints what a call gave to a member. */
static void show(const struct member *member, uint32_t status, bool ticked) {
    if (status != LG_OK) {
        fprintf(stderr, "example: status %" PRIu32 "\n", status);
        exit(3);
    }
    if (ticked) print_fired(&reply.fired);
    print_answer(&reply.answer);
    for (uint32_t at = 0; at < reply.sends_count; at++) keep(member, &reply.sends[at]);
    for (uint32_t at = 0; at < reply.changed_count; at++) {
        printf("record ");
        print_record(&reply.changed[at]);
    }
    for (uint32_t at = 0; at < reply.forgotten_count; at++) {
        printf("forgot ");
        print_name(&reply.forgotten[at]);
        printf("\n");
    }
    if (reply.ousted) printf("ousted\n");
    printf("next %" PRIu64 "\n", reply.next);
}

static uint64_t *number_of(const char *key) {
    static const char *const keys[] = {"interval_ms",   "timeout_ms", "indirect",         "max_score",     "alpha",
                                       "beta",          "confirmations", "lambda",        "nack_thousandths",
                                       "history_limit", "wire",       "forget_ms",        "gossip_ms",     "gossip_to",
                                       "first"};
    uint64_t *numbers[] = {&settings.interval_ms,   &settings.timeout_ms,    &settings.indirect, &settings.max_score,
                           &settings.alpha,         &settings.beta,          &settings.confirmations,
                           &settings.lambda,        &settings.nack_thousandths, &settings.history_limit,
                           &settings.wire,          &settings.forget_ms,     &settings.gossip_ms, &settings.gossip_to,
                           &settings.first};
    for (size_t at = 0; at < sizeof keys / sizeof *keys; at++)
        if (!strcmp(keys[at], key)) return numbers[at];
    stop("no such key");
    return NULL;
}

static void set(char **parts) {
    if (!strcmp(parts[1], "group"))
        settings.group = name_of(parts[2]);
    else
        *number_of(parts[1]) = strtoull(parts[2], NULL, 10);
}

/* `open NAME PORT MOMENT SEED..`, and a seed is `NAME:PORT`. */
static void open_member(char **parts, size_t count) {
    if (members_count == MOST_MEMBERS) stop("too many members");
    struct member *member = &members[members_count++];
    lg_config config = settings;
    config.name = member->name = name_of(parts[1]);
    config.address = member->address = address_of(parts[2]);
    for (size_t at = 4; at < count; at++) {
        char *port = strchr(parts[at], ':');
        if (!port || config.seeds_count == LG_MOST_SEEDS) stop("bad seeds");
        *port++ = 0;
        config.seeds[config.seeds_count++] = (lg_seed){name_of(parts[at]), address_of(port)};
    }
    show(member, lg_detector_new(&member->detector, &config, strtoull(parts[3], NULL, 10), &reply), false);
}

/* `deliver K MOMENT` */
static void deliver(char **parts) {
    size_t number = strtoull(parts[1], NULL, 10);
    if (number == 0 || number > sent_count) stop("no such packet");
    struct sent packet = sent[number - 1];
    struct member *member = member_at(&packet.send.to);
    if (!member) {
        printf("nobody\n");
        return;
    }
    uint64_t now = strtoull(parts[2], NULL, 10);
    show(member,
         lg_detector_heard(&member->detector, packet.send.bytes, packet.send.length, &packet.from, now, &reply), false);
}

static void print_table(struct member *member) {
    static lg_record records[LG_MOST_MEMBERS];
    uint64_t count;
    if (lg_detector_members(&member->detector, records, LG_MOST_MEMBERS, &count) != LG_OK) stop("no table");
    for (uint64_t at = 0; at < count; at++) {
        printf("record ");
        print_record(&records[at]);
    }
}

/* A command for the member whose name is its second word. */
static void command_member(char **parts, size_t count) {
    struct member *member = member_named(parts[1]);
    lg_detector *detector = &member->detector;
    uint64_t now = count > 2 ? strtoull(parts[2], NULL, 10) : 0;
    uint32_t words[LG_WORDS] = {0};
    for (size_t at = 3; at < count && at < 3 + LG_WORDS; at++) words[at - 3] = (uint32_t)strtoul(parts[at], NULL, 10);
    if (!strcmp(parts[0], "tick")) {
        show(member, lg_detector_tick(detector, words, now, &reply), true);
    } else if (!strcmp(parts[0], "leave")) {
        show(member, lg_detector_leave(detector, words, now, &reply), false);
    } else if (!strcmp(parts[0], "health")) {
        show(member, lg_detector_health(detector, now, &reply), false);
    } else if (!strcmp(parts[0], "table")) {
        print_table(member);
    } else if (!strcmp(parts[0], "ask") && count == 4) {
        lg_name other = name_of(parts[3]);
        show(member, lg_detector_ask(detector, &other, now, &reply), false);
    } else if (!strcmp(parts[0], "pull") && count == 4) {
        lg_address peer = address_of(parts[3]);
        show(member, lg_detector_pull(detector, &peer, now, &reply), false);
    } else {
        stop("no such command");
    }
}

static void command(char **parts, size_t count) {
    if (!strcmp(parts[0], "set") && count == 3)
        set(parts);
    else if (!strcmp(parts[0], "open") && count >= 4)
        open_member(parts, count);
    else if (!strcmp(parts[0], "deliver") && count == 3)
        deliver(parts);
    else if (count >= 2)
        command_member(parts, count);
    else
        stop("no such command");
}

int main(void) {
    lg_name any = name_of("any");
    lg_address nowhere = address_of("1");
    if (lg_config_defaults(&settings, &any, &nowhere) != LG_OK) stop("no defaults");
    char line[MOST_LINE];
    while (fgets(line, sizeof line, stdin)) {
        char *parts[MOST_PARTS];
        size_t count = 0;
        for (char *word = strtok(line, " \n"); word && count < MOST_PARTS; word = strtok(NULL, " \n"))
            parts[count++] = word;
        if (count && parts[0][0] != '#') command(parts, count);
    }
    for (size_t at = 0; at < members_count; at++) lg_detector_free(&members[at].detector);
    free(sent);
    return 0;
}
