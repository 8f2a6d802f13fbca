/*
 * Prints, for each field of each struct of include/mewkoast.h, its place and
 * size; then the size of the struct. layout.rs prints the same for the structs
 * of tests/tag_calls.rs, tests/calls.rs and tests/receiver/set_calls.rs, with
 * which every test calls the archives.
 */
#include "mewkoast.h"

#include <stdio.h>

#define FIELD(type, field)                                                     \
    printf(#type " " #field " %zu %zu\n", offsetof(type, field),               \
           sizeof(((type *)0)->field))
#define WHOLE(type) printf(#type " %zu\n", sizeof(type))

static void tag_layer(void)
{
    FIELD(mewkoast_sample_layout, roles);
    FIELD(mewkoast_sample_layout, waves);
    FIELD(mewkoast_sample_layout, space);
    FIELD(mewkoast_sample_layout, width);
    FIELD(mewkoast_sample_layout, colours);
    WHOLE(mewkoast_sample_layout);
    FIELD(mewkoast_checked_dictionary, number);
    FIELD(mewkoast_checked_dictionary, layout);
    WHOLE(mewkoast_checked_dictionary);
    FIELD(mewkoast_dimmer_mapping, bases);
    FIELD(mewkoast_dimmer_mapping, counts);
    FIELD(mewkoast_dimmer_mapping, base);
    FIELD(mewkoast_dimmer_mapping, count);
    WHOLE(mewkoast_dimmer_mapping);
    FIELD(mewkoast_checked_mapping, number);
    FIELD(mewkoast_checked_mapping, dimmer);
    WHOLE(mewkoast_checked_mapping);
}

static void receiver(void)
{
    FIELD(mewkoast_receiver, meters);
    FIELD(mewkoast_receiver, gathered);
    FIELD(mewkoast_receiver, channels);
    WHOLE(mewkoast_receiver);
    FIELD(mewkoast_reply, number);
    FIELD(mewkoast_reply, channel);
    FIELD(mewkoast_reply, chunk_type);
    FIELD(mewkoast_reply, timestamp);
    FIELD(mewkoast_reply, space);
    FIELD(mewkoast_reply, points);
    FIELD(mewkoast_reply, lit_points);
    FIELD(mewkoast_reply, levels);
    WHOLE(mewkoast_reply);
    FIELD(mewkoast_outcome, receiver);
    FIELD(mewkoast_outcome, reply);
    WHOLE(mewkoast_outcome);
    FIELD(mewkoast_set_reply, place);
    FIELD(mewkoast_set_reply, number);
    WHOLE(mewkoast_set_reply);
    FIELD(mewkoast_set_outcome, receiver);
    FIELD(mewkoast_set_outcome, reply);
    WHOLE(mewkoast_set_outcome);
    FIELD(mewkoast_meters, lit_time);
    FIELD(mewkoast_meters, points);
    FIELD(mewkoast_meters, lit_points);
    WHOLE(mewkoast_meters);
    FIELD(mewkoast_span, start);
    FIELD(mewkoast_span, length);
    WHOLE(mewkoast_span);
}

int main(void)
{
    tag_layer();
    receiver();
    return 0;
}
