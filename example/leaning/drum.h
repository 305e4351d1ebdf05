// What the controller and its modules have in common.

enum side { LEFT, RIGHT };

struct blade {
	unsigned int serial;
	short temperature;
	unsigned short worn : 3;
	unsigned short kept : 13;
	enum side side;
};

typedef struct blade blade_t;

struct drum {
	const char *name;
	blade_t blades[2];
	struct drum *next;
};
