#include "whereabouts.h"

/* The last record up to `from` with the letter; it is not sought before the record `past`. */
static Bearer bearer(const Input *file, uint32_t from, uint32_t past, uint32_t kind)
{
    char letter = kind_name(kind)[0];
    for (uint32_t k = from; k > past; k--) {
        if (file->bytes[(k - 1) * RECORD] == (uint8_t)letter) {
            return (Bearer){.kind = kind, .record = k, .value = sheet_read(file, kind, k).value};
        }
    }
    return (Bearer){.kind = kind};
}

/* What a coordinate record or a loop is part of; any other record is part of itself. */
static uint32_t item_kind(uint32_t due)
{
    return due == COORDINATES ? LINE : due == LOOP ? AREA : due;
}

/* Where the serial stands among the numbers: as the third in N, L and A alike. */
static int32_t serial_of(const Bearer *item)
{
    return item->value.numbers[2];
}

/* The record itself, if it can be read as one of the kind. */
static Bearer own(const Input *file, uint32_t record, uint32_t kind)
{
    stragumella_reading reading = sheet_read(file, kind, record);
    return (Bearer){.kind = kind, .record = reading.number == 0 ? record : 0, .value = reading.value};
}

/* Read off the bytes: where a field of the H is ill formed, the library gives no value of it. */
static uint32_t letters_of(const Input *file, uint32_t record)
{
    size_t length = 0;
    const uint8_t *h = record == 0 ? NULL : record_bytes(file, record, &length);
    if (length < 2 || h[0] != 'H') {
        return 0;
    }
    return h[1] == '1' ? UNSTRUCTURED : h[1] == '2' ? STRUCTURED : 0;
}

Whereabouts whereabouts(const Input *file, uint32_t record, uint32_t due)
{
    Whereabouts w = {.mesh = {.kind = MESH}, .layer = {.kind = LAYER}, .item = {.kind = item_kind(due)}};
    uint32_t last = (uint32_t)(file->length / RECORD);
    uint32_t before = record - 1 < last ? record - 1 : last;
    if (due == MESH) {
        w.mesh = own(file, record, MESH);
        return w;
    }
    w.mesh = bearer(file, before, 0, MESH);
    if (due == LAYER) {
        w.layer = own(file, record, LAYER);
        w.letters = letters_of(file, record);
        return w;
    }
    w.layer = bearer(file, before, w.mesh.record, LAYER);
    w.letters = letters_of(file, w.layer.record);
    w.item = bearer(file, before, w.layer.record, item_kind(due));
    w.serial = w.item.record == 0 ? 0 : serial_of(&w.item);
    if (due == item_kind(due)) {
        w.serial++;
        w.item = (Bearer){.kind = due};
    }
    return w;
}
