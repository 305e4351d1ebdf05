// The controller's own program, whose table base.btf modules lean on. It was made in this folder with gcc 12.2.0 and pahole 1.24
// (Debian packages gcc and pahole):
//
//     gcc -g -c base.c -o base.o
//     pahole -J --btf_encode_detached=base.btf base.o

#include "drum.h"

int turn(struct drum *drum, unsigned int steps)
{
	return drum->blades[0].temperature + (int)steps;
}
