/* The parts of a crossing, and the cells of bays. */
#include "order.h"

#include "lines.h"

uint64_t crossing_carrier(uint64_t crossing)
{
    return crossing >> 32;
}

unsigned crossing_from(uint64_t crossing)
{
    return (unsigned)(crossing >> 16 & 0xffff);
}

unsigned crossing_to(uint64_t crossing)
{
    return (unsigned)(crossing & 0xffff);
}

void find_cells(order *o)
{
    size_t x, y, bay = 0;
    o->height = (size_t)number_of(field_of(line_of(&o->map, 2), ' ', 1));
    o->width = (size_t)number_of(field_of(line_of(&o->map, 3), ' ', 1));
    for (y = 0; y < o->height; y++) {
        text row = line_of(&o->map, 5 + y);
        for (x = 0; x < o->width; x++) {
            if (row.at[x] != '.' && row.at[x] != 'G')
                continue;
            o->column[bay] = (uint16_t)x;
            o->row[bay] = (uint16_t)y;
            bay++;
        }
    }
}
