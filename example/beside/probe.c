// A measuring program that is fitted to its controller when it is loaded: where a field stands is left open, and a relocation record of
// the section .BTF.ext says which. ./README.md says how its table and its section were made.

#define fitted __attribute__((preserve_access_index))
#define in(name) __attribute__((section(name)))

struct blade {
	unsigned int serial;
	unsigned short degrees;
	short lean;
} fitted;

struct drum {
	struct blade blades[2];
	int turning;
} fitted;

in("probe/hot") int too_hot(struct blade *blade)
{
	return blade->degrees > 20000;
}

in("probe/turning") int second_lean(struct drum *drum)
{
	if (!drum->turning)
		return 0;
	return drum->blades[1].lean;
}
