/* What a client says and hears: HTTP/1.1 with als, and with etcd's JSON gateway; gRPC (HTTP/2 in the clear, one call at a time) with etcd. */
#ifndef SPEAK_H
#define SPEAK_H
#include <stdbool.h>
#include <stdint.h>
#include <stdio.h>
#include <stdlib.h>
#include <string.h>
#include <sys/socket.h>

typedef enum { COMMIT, GET, GATEWAY_PUT, GRPC_PUT, GRPC_RANGE, KINDS } Kind;

static const char *const kind_names[KINDS] = {"commit", "get", "gateway-put", "grpc-put", "grpc-range"};

enum { BUFFER = 1 << 17, MOST_EACH = 1000, SLOTS_OF_A_PAGE = 15, VALUE_BYTES = 16 };

/* What all clients ask for. */
typedef struct {
    Kind kind;
    int each;      /* transactions of one commit; more than 1: an array */
    unsigned keys;
    char host[128];
} Asked;

typedef struct {
    int fd;            /* -1: there is no connection */
    bool is_sending;   /* epoll says when more of `out` can go */
    bool is_waiting;   /* a request has no answer yet */
    bool has_answered; /* this connection has given an answer */
    bool got_data;     /* the gRPC call has had a message */
    uint32_t stream;   /* the gRPC call's; 0: the connection has not begun */
    uint64_t seed;
    double due;        /* when the request that waits was due, or the next one is */
    size_t in_len, out_len, out_at;
    char *in, *out;
} Client;

/* An HTTP status (200 for a gRPC call that succeeded, 500 for one that failed), 0 where the answer is not whole; whether the connection ends with it. */
typedef struct {
    int status;
    bool ends;
} Answer;

static inline bool is_grpc(Kind kind)
{
    return kind == GRPC_PUT || kind == GRPC_RANGE;
}

static inline uint64_t next_random(Client *c)
{
    c->seed ^= c->seed << 13;
    c->seed ^= c->seed >> 7;
    return c->seed ^= c->seed << 17;
}

static inline void random_value(Client *c, unsigned char *value)
{
    uint64_t halves[2] = {next_random(c), next_random(c)};
    memcpy(value, halves, VALUE_BYTES);
}

/* etcd's name of a key: page/slot. Its length is returned. */
static inline int key_name(Client *c, unsigned keys, char *name)
{
    unsigned key = (unsigned)(next_random(c) % keys);
    return sprintf(name, "%u/%u", key / SLOTS_OF_A_PAGE, key % SLOTS_OF_A_PAGE);
}

static inline void base64(const unsigned char *from, int len, char *to)
{
    static const char digits[] = "ABCDEFGHIJKLMNOPQRSTUVWXYZabcdefghijklmnopqrstuvwxyz0123456789+/";
    for (int i = 0; i < len; i += 3) {
        uint32_t v = (uint32_t)from[i] << 16 | (i + 1 < len ? (uint32_t)from[i + 1] << 8 : 0) | (i + 2 < len ? from[i + 2] : 0u);
        *to++ = digits[v >> 18];
        *to++ = digits[v >> 12 & 63];
        *to++ = i + 1 < len ? digits[v >> 6 & 63] : '=';
        *to++ = i + 2 < len ? digits[v & 63] : '=';
    }
    *to = 0;
}

/* ---- HTTP/1.1 */

/* A transaction of als that sets one key. Its length is returned. */
static inline int transaction(Client *c, unsigned keys, char *to)
{
    unsigned key = (unsigned)(next_random(c) % keys);
    unsigned char value[VALUE_BYTES];
    random_value(c, value);
    int len = sprintf(to, "{\"set\":[{\"key\":[%u,%u],\"to\":\"", key / SLOTS_OF_A_PAGE, key % SLOTS_OF_A_PAGE);
    for (int i = 0; i < VALUE_BYTES; i++) len += sprintf(to + len, "%02x", value[i]);
    return len + sprintf(to + len, "\"}]}");
}

static inline int commit_body(Client *c, const Asked *asked, char *body)
{
    int len = 0;
    if (asked->each > 1) body[len++] = '[';
    for (int i = 0; i < asked->each; i++) {
        if (i) body[len++] = ',';
        len += transaction(c, asked->keys, body + len);
    }
    if (asked->each > 1) body[len++] = ']';
    return len;
}

static inline int gateway_body(Client *c, const Asked *asked, char *body)
{
    char name[24], key[40], text[40];
    unsigned char value[VALUE_BYTES];
    base64((unsigned char *)name, key_name(c, asked->keys, name), key);
    random_value(c, value);
    base64(value, VALUE_BYTES, text);
    return sprintf(body, "{\"key\":\"%s\",\"value\":\"%s\"}", key, text);
}

static inline void http_request(Client *c, const Asked *asked)
{
    static _Thread_local char body[BUFFER];
    if (asked->kind == GET) {
        unsigned key = (unsigned)(next_random(c) % asked->keys);
        c->out_len = (size_t)sprintf(c->out, "GET /keys/%u/%u HTTP/1.1\r\nHost: %s\r\n\r\n", key / SLOTS_OF_A_PAGE, key % SLOTS_OF_A_PAGE, asked->host);
        return;
    }
    const char *path = asked->kind == COMMIT ? "/commit" : "/v3/kv/put";
    int len = asked->kind == COMMIT ? commit_body(c, asked, body) : gateway_body(c, asked, body);
    int head = sprintf(c->out, "POST %s HTTP/1.1\r\nHost: %s\r\nContent-Type: application/json\r\nContent-Length: %d\r\n\r\n", path, asked->host, len);
    memcpy(c->out + head, body, (size_t)len);
    c->out_len = (size_t)(head + len);
}

static inline void take_off(Client *c, size_t len)
{
    memmove(c->in, c->in + len, c->in_len - len);
    c->in_len -= len;
}

static inline Answer http_answer(Client *c)
{
    c->in[c->in_len] = 0;
    char *end = strstr(c->in, "\r\n\r\n");
    if (!end) return (Answer){0, false};
    *end = 0;
    const char *length = strcasestr(c->in, "\ncontent-length:");
    Answer found = {strlen(c->in) > 9 ? atoi(c->in + 9) : 0, strcasestr(c->in, "\nconnection: close") != NULL};
    *end = '\r';
    if (!length || found.status <= 0) return (Answer){0, true};
    size_t whole = (size_t)(end + 4 - c->in) + strtoul(length + 16, NULL, 10);
    if (c->in_len < whole) return (Answer){0, false};
    take_off(c, whole);
    return found;
}

/* ---- gRPC */

enum { FRAME_HEAD = 9, MESSAGE_HEAD = 5, END_STREAM = 1, ACK = 1, END_HEADERS = 4 };
enum { DATA = 0, HEADERS = 1, RESET = 3, SETTINGS = 4, PING = 6, GO_AWAY = 7, WINDOW_UPDATE = 8 };

static inline void put_frame(char *to, size_t len, int type, int flags, uint32_t stream)
{
    uint32_t size = (uint32_t)len;
    const uint32_t bytes[] = {size >> 16, size >> 8, size, (uint32_t)type, (uint32_t)flags, stream >> 24, stream >> 16, stream >> 8, stream};
    for (int i = 0; i < FRAME_HEAD; i++) to[i] = (char)bytes[i];
}

static inline char *put_text(char *to, const char *text)
{
    size_t len = strlen(text);
    *to = (char)len;
    memcpy(to + 1, text, len);
    return to + 1 + len;
}

/* The preface, and windows so wide that no answer waits for one. */
static inline char *grpc_greeting(char *to)
{
    static const char preface[] = "PRI * HTTP/2.0\r\n\r\nSM\r\n\r\n", stream_window[] = "\0\4\x7f\xff\xff\xff", window[] = "\x7f\xff\0\0";
    memcpy(to, preface, sizeof preface - 1);
    to += sizeof preface - 1;
    put_frame(to, sizeof stream_window - 1, SETTINGS, 0, 0);
    memcpy(to + FRAME_HEAD, stream_window, sizeof stream_window - 1);
    to += FRAME_HEAD + sizeof stream_window - 1;
    put_frame(to, sizeof window - 1, WINDOW_UPDATE, 0, 0);
    memcpy(to + FRAME_HEAD, window, sizeof window - 1);
    return to + FRAME_HEAD + sizeof window - 1;
}

/* The header fields of a call, none of them put into the server's table: names by their number in HTTP/2's own table where it has them. */
static inline char *grpc_headers(char *to, const Asked *asked, uint32_t stream)
{
    char *head = to;
    to += FRAME_HEAD;
    memcpy(to, "\x83\x86\x04", 3); /* :method POST, :scheme http, :path */
    to = put_text(to + 3, asked->kind == GRPC_PUT ? "/etcdserverpb.KV/Put" : "/etcdserverpb.KV/Range");
    *to = 0x01; /* :authority */
    to = put_text(to + 1, asked->host);
    memcpy(to, "\x0f\x10", 2); /* content-type */
    to = put_text(to + 2, "application/grpc");
    *to = 0x00; /* a name in full */
    to = put_text(put_text(to + 1, "te"), "trailers");
    put_frame(head, (size_t)(to - head) - FRAME_HEAD, HEADERS, END_HEADERS, stream);
    return to;
}

/* PutRequest has the key as field 1 and the value as field 2; RangeRequest the key as field 1. */
static inline char *grpc_message(Client *c, char *to, const Asked *asked)
{
    char name[24], *head = to, *message = to + FRAME_HEAD + MESSAGE_HEAD;
    key_name(c, asked->keys, name);
    *message = 0x0a;
    to = put_text(message + 1, name);
    if (asked->kind == GRPC_PUT) {
        memcpy(to, "\x12\x10", 2);
        random_value(c, (unsigned char *)to + 2);
        to += 2 + VALUE_BYTES;
    }
    size_t len = (size_t)(to - message);
    put_frame(head, len + MESSAGE_HEAD, DATA, END_STREAM, c->stream);
    memset(head + FRAME_HEAD, 0, MESSAGE_HEAD - 1);
    message[-1] = (char)len;
    return to;
}

static inline void grpc_request(Client *c, const Asked *asked)
{
    char *to = c->stream ? c->out : grpc_greeting(c->out);
    c->stream = c->stream ? c->stream + 2 : 1;
    to = grpc_message(c, grpc_headers(to, asked, c->stream), asked);
    c->out_len = (size_t)(to - c->out);
    c->got_data = false;
}

/* Says that settings were read, or answers a ping; nothing else may be on its way then, since a call was sent whole before its answer comes. */
static inline bool grpc_reply(Client *c, int type, const char *from, size_t len)
{
    char reply[FRAME_HEAD + 8];
    put_frame(reply, len, type, ACK, 0);
    memcpy(reply + FRAME_HEAD, from, len);
    return send(c->fd, reply, FRAME_HEAD + len, MSG_NOSIGNAL) == (ssize_t)(FRAME_HEAD + len);
}

/* A call that failed ends with its trailers and no message before them. */
static inline Answer grpc_answer(Client *c)
{
    size_t at = 0, len;
    Answer found = {0, false};
    for (; c->in_len - at >= FRAME_HEAD; at += FRAME_HEAD + len) {
        const unsigned char *f = (unsigned char *)c->in + at;
        len = (size_t)f[0] << 16 | (size_t)f[1] << 8 | f[2];
        if (c->in_len - at < FRAME_HEAD + len) break;
        int type = f[3], flags = f[4];
        uint32_t stream = (f[5] & 127u) << 24 | (uint32_t)f[6] << 16 | (uint32_t)f[7] << 8 | f[8];
        bool is_asked = (type == SETTINGS || type == PING) && !(flags & ACK), is_own = stream == c->stream && type <= HEADERS;
        if (type == RESET || type == GO_AWAY) return (Answer){0, true};
        if (is_asked && !grpc_reply(c, type, (const char *)f + FRAME_HEAD, type == PING ? 8 : 0)) return (Answer){0, true};
        if (is_own && type == DATA && len > MESSAGE_HEAD) c->got_data = true;
        if (is_own && flags & END_STREAM) found.status = c->got_data ? 200 : 500;
    }
    take_off(c, at);
    return found;
}

#endif
