/* page PORT: joins the document at 127.0.0.1:PORT, makes a page with a frame and two shapes in it, waits until the server has judged all of
 * that, and prints the tree that it shows then. lugcurrant_flow.h says which message goes when, socket.c has the socket. Messages are sent
 * ahead of the answers, and answers are read while messages are written. */
#define _POSIX_C_SOURCE 200809L

#include <lugcurrant_flow.h>

#include "socket.h"

#include <inttypes.h>
#include <stdio.h>
#include <stdlib.h>
#include <string.h>
#include <time.h>

struct page {
    lugcurrant_client client;
    lugcurrant_flow *flow;
    struct socket socket;
};

static void require(bool holds, const char *what)
{
    if (!holds) {
        fprintf(stderr, "page: %s\n", what);
        exit(1);
    }
}

/* The time in milliseconds, from any start. */
static double now(void)
{
    struct timespec time;
    clock_gettime(CLOCK_MONOTONIC, &time);
    return 1000.0 * (double)time.tv_sec + (double)time.tv_nsec / 1e6;
}

/* Prints what a user should know of an event. */
static void tell(const lugcurrant_flow_event *event)
{
    if (event->type == LUGCURRANT_FLOW_STATE) {
        require(event->state != LUGCURRANT_STATE_FAULT, event->words);
        if (event->state != LUGCURRANT_STATE_ONLINE)
            fprintf(stderr, "page: %s: %s\n", lugcurrant_state_name(event->state), event->words);
    } else if (event->type == LUGCURRANT_FLOW_REFUSED) {
        bool is_untaken = event->lost_count > 0; /* the server can't take it */
        fprintf(stderr, "page: edit %" PRIu64 " (%s) was refused: %s\n", event->number, event->edit,
                is_untaken ? lugcurrant_fault_sentence(event->reason) : lugcurrant_refusal_sentence(event->reason));
    } else if (event->type == LUGCURRANT_FLOW_ANEW) {
        for (size_t k = 0; k < event->lost_count; k++)
            fprintf(stderr, "page: lost %s: %s\n", event->lost[k].change, lugcurrant_fault_sentence(event->lost[k].code));
        for (size_t k = 0; k < event->unsure_count; k++)
            fprintf(stderr, "page: perhaps lost %s\n", event->unsure[k].change);
    }
}

/* Hears each message that came whole. */
static void hear(struct page *page)
{
    const uint8_t *bytes;
    size_t length;
    const char *wrong = NULL;
    lugcurrant_flow_event event;
    while (socket_receive(&page->socket, &bytes, &length, &wrong)) {
        require(lugcurrant_flow_hear(page->flow, bytes, length, now()) == LUGCURRANT_DONE, "out of memory");
        while (lugcurrant_flow_next_event(page->flow, &event) == LUGCURRANT_DONE)
            tell(&event);
    }
    require(wrong == NULL, wrong);
}

/* Sends and hears until nothing waits, and everything that the server has was heard. */
static void settle(struct page *page)
{
    const uint8_t *bytes;
    size_t length;
    while (!lugcurrant_flow_is_settled(page->flow)) {
        uint32_t given;
        while ((given = lugcurrant_flow_next_outgoing(page->flow, now(), &bytes, &length)) == LUGCURRANT_DONE)
            require(socket_send(&page->socket, bytes, length), "out of memory");
        require(given == LUGCURRANT_NONE, lugcurrant_fault_sentence(given));
        const char *wrong = socket_wait(&page->socket, lugcurrant_flow_due(page->flow, now()));
        require(wrong == NULL, wrong);
        hear(page);
    }
}

static lugcurrant_object_id create(struct page *page, uint32_t kind, lugcurrant_object_id parent)
{
    lugcurrant_object_id made = {0, 0};
    uint32_t result = lugcurrant_create_last(&page->client, kind, parent.client, parent.counter, &made);
    require(result == LUGCURRANT_DONE, lugcurrant_fault_sentence(result));
    return made;
}

static void set(struct page *page, lugcurrant_object_id at, const char *name, const char *json)
{
    uint32_t result = lugcurrant_set(&page->client, at.client, at.counter, (const uint8_t *)name, strlen(name), (const uint8_t *)json,
                                     strlen(json));
    require(result == LUGCURRANT_DONE, lugcurrant_fault_sentence(result));
}

static void draw(struct page *page)
{
    lugcurrant_object_id root = {0, 0};
    lugcurrant_object_id sheet = create(page, LUGCURRANT_PAGE, root);
    lugcurrant_object_id frame = create(page, LUGCURRANT_FRAME, sheet);
    lugcurrant_object_id first = create(page, LUGCURRANT_SHAPE, frame);
    lugcurrant_object_id second = create(page, LUGCURRANT_SHAPE, frame);
    set(page, sheet, "name", "\"From C\"");
    set(page, first, "fill", "[\"rgba\",4278190335]");
    set(page, second, "x", "120");
}

static void print_tree(struct page *page)
{
    require(lugcurrant_tree(&page->client) == LUGCURRANT_DONE, "out of memory");
    size_t length = lugcurrant_length(&page->client);
    char *text = malloc(length);
    require(text != NULL, "out of memory");
    lugcurrant_read(&page->client, (uint8_t *)text, length);
    fwrite(text, 1, length, stdout);
    free(text);
}

int main(int count, char **words)
{
    struct page page = {0};
    char room[160];
    const char *fault = lugcurrant_library_fault(room, sizeof room);
    require(fault == NULL, fault);
    require(count == 2, "the port is missing");
    require(lugcurrant_new(&page.client) == LUGCURRANT_DONE, "out of memory");
    page.flow = lugcurrant_flow_new(&page.client, NULL);
    require(page.flow != NULL, "out of memory");
    const char *wrong = socket_open(&page.socket, words[1]);
    require(wrong == NULL, wrong);

    lugcurrant_flow_open(page.flow, now());
    settle(&page);
    draw(&page);
    settle(&page);
    print_tree(&page);

    socket_close(&page.socket);
    lugcurrant_flow_free(page.flow);
    lugcurrant_free(&page.client);
    return 0;
}
