// The header as C++ reads it.
#include "pelzaune.h"

int main()
{
    pelzaune_date date;
    pelzaune_status status = pelzaune_parse_date(PELZAUNE_ISO8601, reinterpret_cast<const uint8_t *>("2021-01-02"), 10, &date);
    const pelzaune_moment moment = { 2021, 0, 0, 1, 2, 3, 4, 5 };
    uint8_t text[PELZAUNE_DESCRIBED_TEXT];
    size_t length;
    pelzaune_status written = pelzaune_read_format_moment(PELZAUNE_STRFTIME, reinterpret_cast<const uint8_t *>("%d"), 2, &moment,
        text, sizeof text, &length);
    return status != PELZAUNE_OK || date.day != 2 || *pelzaune_text(status) || written != PELZAUNE_OK || length != 2 || text[1] != '2';
}
