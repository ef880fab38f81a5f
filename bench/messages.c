/* The peer of bench/messages: parses the requests of the standard input, all in memory, by Debian's http_parser, and
   copies the same reply for each. It prints what crates/bench_messages prints with `timed`. */
#include <http_parser.h>
#include <stdio.h>
#include <stdlib.h>
#include <string.h>
#include <time.h>

struct link {
    const char *target;
    size_t target_size, body_size, requests, taken, room;
    char *replies;
};

static char reply[256];
static size_t reply_size;

static int on_url(http_parser *parser, const char *at, size_t size) {
    struct link *link = parser->data;
    link->target = at;
    link->target_size += size;
    return 0;
}

static int on_body(http_parser *parser, const char *at, size_t size) {
    struct link *link = parser->data;
    (void)at;
    link->body_size += size;
    return 0;
}

static int on_message_complete(http_parser *parser) {
    struct link *link = parser->data;
    if (link->room < link->taken + reply_size) {
        link->room = 2 * link->room + reply_size;
        link->replies = realloc(link->replies, link->room);
        if (link->replies == NULL) return 1;
    }
    memcpy(link->replies + link->taken, reply, reply_size);
    link->taken += reply_size;
    link->requests++;
    return 0;
}

int main(void) {
    size_t size = 0, room = 1 << 20, got;
    char *bytes = malloc(room), body[100];
    memset(body, '1', sizeof body);
    reply_size = (size_t)sprintf(reply, "HTTP/1.1 200 OK\r\nContent-Length: %zu\r\nContent-Type: application/json\r\n\r\n%.*s", sizeof body, (int)sizeof body, body);
    while (bytes != NULL && (got = fread(bytes + size, 1, room - size, stdin)) > 0) {
        size += got;
        if (size == room) bytes = realloc(bytes, room *= 2);
    }
    if (bytes == NULL) return 1;
    struct link link = {0};
    http_parser parser;
    http_parser_settings settings;
    http_parser_settings_init(&settings);
    settings.on_url = on_url;
    settings.on_body = on_body;
    settings.on_message_complete = on_message_complete;
    http_parser_init(&parser, HTTP_REQUEST);
    parser.data = &link;
    struct timespec start, end;
    clock_gettime(CLOCK_MONOTONIC, &start);
    size_t parsed = http_parser_execute(&parser, &settings, bytes, size);
    clock_gettime(CLOCK_MONOTONIC, &end);
    if (parsed != size) return 1;
    printf("requests %zu replies %zu\n", link.requests, link.taken);
    printf("nanoseconds %lld\n", (long long)(end.tv_sec - start.tv_sec) * 1000000000 + (end.tv_nsec - start.tv_nsec));
    return link.target_size + link.body_size == 0;
}
