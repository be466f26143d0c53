#include "random.h"

uint64_t random_bits(struct random *random)
{
    uint64_t mixed = random->state += UINT64_C(0x9E3779B97F4A7C15);
    mixed = (mixed ^ (mixed >> 30)) * UINT64_C(0xBF58476D1CE4E5B9);
    mixed = (mixed ^ (mixed >> 27)) * UINT64_C(0x94D049BB133111EB);
    return mixed ^ (mixed >> 31);
}

uint32_t random_below(struct random *random, uint32_t end)
{
    return (uint32_t)(random_bits(random) % end);
}

uint32_t random_between(struct random *random, uint32_t low, uint32_t high)
{
    return low + (uint32_t)(random_bits(random) % ((uint64_t)high - low + 1));
}

int random_one_in(struct random *random, uint32_t chances)
{
    return random_below(random, chances) == 0;
}
