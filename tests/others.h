// The points of the table in docs/ARCHITECTURE.md, in its order. Each driver says of its clock what it does at each of them, a line or two.
#ifndef OTHERS_H
#define OTHERS_H

static void senders_kept(void);
static void window(void);
static void port_numbers(void);
static void circle(void);
static void backups(void);
static void a_step_apart(void);
static void message_length(void);
static void nanoseconds(void);
static void refused_buffer(void);

static void points(void)
{
    senders_kept();
    window();
    port_numbers();
    circle();
    backups();
    a_step_apart();
    message_length();
    nanoseconds();
    refused_buffer();
}

#endif
