#include "source.h"

uint8_t source_byte(struct source *source)
{
    if (source->generator != NULL)
        return (uint8_t)generator_next(source->generator);
    if (source->left == 0)
        return 0;
    source->left--;
    return *source->at++;
}

int source_dry(const struct source *source)
{
    return source->generator == NULL && source->left == 0;
}

uint64_t source_number(struct source *source, int bytes)
{
    uint64_t number = 0;

    for (int i = 0; i < bytes; i++)
        number |= (uint64_t)source_byte(source) << 8 * i;
    return number;
}

uint64_t source_below(struct source *source, uint64_t bound)
{
    return source_number(source, bound > 256 ? 2 : 1) % bound;
}

uint64_t generator_next(uint64_t *state)
{
    uint64_t mixed = *state += 0x9e3779b97f4a7c15;

    mixed = (mixed ^ mixed >> 30) * 0xbf58476d1ce4e5b9;
    mixed = (mixed ^ mixed >> 27) * 0x94d049bb133111eb;
    return mixed ^ mixed >> 31;
}
