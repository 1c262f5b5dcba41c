/* Calls the cents rule as an invoicing package would, and checks the answers. */
#include <stdio.h>

#include "makwirfa.h"

static int wrong;

static void expect(uint64_t watt_hours, uint64_t price, uint32_t answer, uint64_t cents)
{
	uint64_t got = 777;
	uint32_t code = makwirfa_cents(watt_hours, price, &got);

	if (code != answer || got != cents) {
		printf("makwirfa_cents(%llu, %llu): %u and %llu, not %u and %llu\n",
		       (unsigned long long)watt_hours, (unsigned long long)price, code,
		       (unsigned long long)got, answer, (unsigned long long)cents);
		wrong++;
	}
}

int main(void)
{
	expect(14, 350, MAKWIRFA_OK, 0);
	expect(15, 350, MAKWIRFA_OK, 1);
	expect(12500, 350, MAKWIRFA_OK, 438);
	expect(0, 0, MAKWIRFA_OK, 0);
	expect(MAKWIRFA_LARGEST_WATT_HOURS, MAKWIRFA_LARGEST_PRICE, MAKWIRFA_OK, UINT64_C(10000000000));
	/* After a refusal the number is as it was. */
	expect(MAKWIRFA_LARGEST_WATT_HOURS + 1, 350, MAKWIRFA_OUT_OF_RANGE, 777);
	expect(1, MAKWIRFA_LARGEST_PRICE + 1, MAKWIRFA_OUT_OF_RANGE, 777);
	expect(UINT64_MAX, UINT64_MAX, MAKWIRFA_OUT_OF_RANGE, 777);
	if (wrong == 0)
		printf("the C interface answers as its header says\n");
	return wrong != 0;
}
