/*
 * Makwirfa for C: what an invoicing package calls.
 *
 * Link the static library that `tools/build invoicing` writes to
 * target/staticlib/libinvoicing.a. The functions allocate nothing, keep no
 * state, and may be called from any thread.
 */
#ifndef MAKWIRFA_H
#define MAKWIRFA_H

#include <stddef.h>
#include <stdint.h>

#ifdef __cplusplus
extern "C" {
#endif

/* The limits of the cents rule. */
#define MAKWIRFA_LARGEST_WATT_HOURS UINT64_C(1000000000)
#define MAKWIRFA_LARGEST_PRICE UINT64_C(100000)

/* Answers. Every other number is that of a refusal (docs/RULES.md). */
#define MAKWIRFA_OK UINT32_C(0)
#define MAKWIRFA_OUT_OF_RANGE UINT32_C(1)

/*
 * What energy costs.
 *
 *   watt_hours  0 to 1,000,000,000
 *   price       0 to 100,000: thousandths of a currency unit for each kWh
 *   cents       where the answer goes; not NULL
 *
 * Stores (watt_hours * price + 5000) / 10000 in *cents, which is the price in
 * cents to the nearest, a half up, and returns MAKWIRFA_OK. Where watt_hours
 * or price is above its limit, returns MAKWIRFA_OUT_OF_RANGE and leaves *cents
 * as it was.
 */
uint32_t makwirfa_cents(uint64_t watt_hours, uint64_t price, uint64_t *cents);

/* Why a text is no frame. */
#define MAKWIRFA_TEXT_TOO_LONG UINT32_C(51)
#define MAKWIRFA_TOO_DEEP UINT32_C(52)
#define MAKWIRFA_NOT_JSON UINT32_C(53)
#define MAKWIRFA_NOT_A_FRAME UINT32_C(54)
#define MAKWIRFA_BAD_MEMBERS UINT32_C(55)
#define MAKWIRFA_BAD_VALUE UINT32_C(56)

/*
 * Whether a text is the frame of a transmission: an OCPP-J call with the
 * action TransactionEvent.
 *
 *   text    the bytes; not NULL, even where length is 0
 *   length  how many there are; no byte past them is read
 *
 * Returns MAKWIRFA_OK where the text is a frame, and otherwise one of the
 * numbers above: the first of them, in this order, that is the case.
 */
uint32_t makwirfa_frame_check(const uint8_t *text, size_t length);

#ifdef __cplusplus
}
#endif

#endif
