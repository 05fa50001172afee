#include "booths.h"

#include <stdio.h>
#include <string.h>

/* No packet of it has come yet: no answer of shawm_tag is this. */
enum { NO_MEDIA_YET = 256 };

const char *booth_label(const struct address *address, const struct listed *listed)
{
    static char label[ADDRESS_TEXT + LISTED_NAME + 4];
    char text[ADDRESS_TEXT];

    address_text(address, text);
    if (listed == NULL)
        snprintf(label, sizeof label, "%s", text);
    else
        snprintf(label, sizeof label, "%s (%s)", text, listed->name);
    return label;
}

const char *booth_name(const struct booth *booth)
{
    return booth_label(&booth->address, booth->listed);
}

struct booth *booths_by_address(struct booths *booths, const struct address *address)
{
    size_t i;

    for (i = 0; i < BOOTHS; i++)
        if (booths->all[i].live && address_same(&booths->all[i].address, address))
            return &booths->all[i];
    return NULL;
}

struct booth *booths_by_endpoint(struct booths *booths, uint32_t endpoint)
{
    size_t i;

    for (i = 0; i < BOOTHS; i++)
        if (booths->all[i].live && booths->all[i].endpoint == endpoint)
            return &booths->all[i];
    return NULL;
}

struct booth *booths_most_idle(struct booths *booths)
{
    struct booth *idle = NULL;
    size_t i;

    for (i = 0; i < BOOTHS; i++)
        if (booths->all[i].live && (idle == NULL || booths->all[i].heard < idle->heard))
            idle = &booths->all[i];
    return idle;
}

static struct booth *vacant(struct booths *booths)
{
    size_t i;

    for (i = 0; i < BOOTHS; i++)
        if (!booths->all[i].live)
            return &booths->all[i];
    return NULL;
}

struct booth *booths_add(struct booths *booths, const struct address *address, const struct listed *listed,
                         int64_t heard)
{
    struct booth *booth = vacant(booths);

    if (booth == NULL)
        return NULL;
    memset(booth, 0, sizeof *booth);
    booth->live = 1;
    booth->address = *address;
    booth->listed = listed;
    booth->endpoint = listed == NULL ? ++booths->last : listed->endpoint;
    booth->heard = heard;
    booth->tag = NO_MEDIA_YET;
    return booth;
}

void booths_remove(struct booth *booth)
{
    memset(booth, 0, sizeof *booth);
}

unsigned booths_clear(struct booths *booths)
{
    unsigned count = 0;
    size_t i;

    for (i = 0; i < BOOTHS; i++) {
        count += booths->all[i].live != 0;
        booths_remove(&booths->all[i]);
    }
    return count;
}
