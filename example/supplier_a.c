// The measuring program of supplier A's blade: a temperature is unsigned, in hundredths of a degree.
// ./README.md says how its table was made.

#define note(text) __attribute__((btf_decl_tag(text)))
#define held(text) __attribute__((btf_type_tag(text)))

typedef unsigned short u16;
typedef unsigned int u32;
typedef u16 centi;
typedef const volatile centi sensed;

enum state { IDLE, CUTTING, WORN = 7 };

// height and wear in hundredths of a millimetre
struct tooth {
	u16 height;
	u16 wear note("worn at 40");
};

union reading {
	centi degrees;
	unsigned char raw[2];
};

struct blade {
	u32 serial;
	centi temperature;
	union reading last;
	struct tooth teeth[2][3];
	struct blade *spare;
	enum state state : 3;
	u32 turning : 1;
	u32 turns : 28;
} note("one record");

sensed sensor;
struct blade mounted = { .serial = 1 };
const u32 limit = 20000;
struct blade held("shelf") *shelf;

int too_hot(const struct blade *blade, centi most)
{
	return blade->temperature > most;
}

void measure(void)
{
	mounted.temperature = sensor;
}
