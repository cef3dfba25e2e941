/* For replay.py --memory: allocators that fail at a given call, calls of a flow during which they do, and counts of what a flow holds.
 * The sources of the flow are compiled to call the counting functions. The shared object of all this is loaded before the C library, so the
 * library of the client gets memory here, too. */
#include <lugcurrant_flow.h>

#include <stdlib.h>

void *__libc_malloc(size_t size);
void *__libc_realloc(void *at, size_t size);
void __libc_free(void *at);

static long allowed = -1; /* allocations that don't fail, or -1: none fails */

long failing_blocks;      /* blocks of memory that flows hold */
long failing_clients;     /* clients that flows have made, without those that they have freed */

static bool fails(void)
{
    if (allowed > 0)
        allowed--;
    else if (allowed == 0)
        return true;
    return false;
}

void *malloc(size_t size)
{
    return fails() ? NULL : __libc_malloc(size);
}

void *realloc(void *at, size_t size)
{
    return fails() ? NULL : __libc_realloc(at, size);
}

void *counting_malloc(size_t size)
{
    void *at = malloc(size);
    failing_blocks += at != NULL;
    return at;
}

void counting_free(void *at)
{
    failing_blocks -= at != NULL;
    __libc_free(at);
}

uint32_t counting_client_new(lugcurrant_client *client)
{
    uint32_t result = lugcurrant_new(client);
    failing_clients += result == LUGCURRANT_DONE;
    return result;
}

uint32_t counting_client_load(lugcurrant_client *client, const uint8_t *bytes, size_t length)
{
    uint32_t result = lugcurrant_load(client, bytes, length);
    failing_clients += result == LUGCURRANT_DONE;
    return result;
}

uint32_t counting_client_free(lugcurrant_client *client)
{
    uint32_t result = lugcurrant_free(client);
    failing_clients -= result == LUGCURRANT_DONE;
    return result;
}

lugcurrant_flow *failing_new(long after, lugcurrant_client *client, const lugcurrant_flow_options *options)
{
    allowed = after;
    lugcurrant_flow *flow = lugcurrant_flow_new(client, options);
    allowed = -1;
    return flow;
}

uint32_t failing_next_outgoing(long after, lugcurrant_flow *flow, double now, const uint8_t **bytes, size_t *length)
{
    allowed = after;
    uint32_t result = lugcurrant_flow_next_outgoing(flow, now, bytes, length);
    allowed = -1;
    return result;
}

uint32_t failing_hear(long after, lugcurrant_flow *flow, const uint8_t *bytes, size_t length, double now)
{
    allowed = after;
    uint32_t result = lugcurrant_flow_hear(flow, bytes, length, now);
    allowed = -1;
    return result;
}

uint32_t failing_presence_set(long after, lugcurrant_flow *flow, const char *value, size_t length)
{
    allowed = after;
    uint32_t result = lugcurrant_flow_presence_set(flow, value, length);
    allowed = -1;
    return result;
}

uint32_t failing_begin_anew(long after, lugcurrant_flow *flow)
{
    allowed = after;
    uint32_t result = lugcurrant_flow_begin_anew(flow);
    allowed = -1;
    return result;
}
