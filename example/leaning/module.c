// A module for the drum's brake. Its table module.btf leans on base.btf: types 1 to 16 and every name below 162 are the base's.
// It was made behind the base's, with the same tools:
//
//     gcc -g -c module.c -o module.o
//     pahole -J --btf_base=base.btf --btf_encode_detached=module.btf module.o

#include "drum.h"

struct brake {
	struct drum *drum;
	blade_t spare;
	unsigned int pressure;
	struct brake *other;
	union {
		short lean;
		enum side side;
	};
};

int press(struct brake *brake, blade_t *blade)
{
	return brake->spare.temperature + blade->temperature;
}
