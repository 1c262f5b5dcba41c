/* Calls the frame check as an invoicing package would, and checks the answers. */
#include <stdio.h>
#include <string.h>

#include "makwirfa.h"

static int wrong;

static void expect(const char *text, size_t length, uint32_t answer)
{
	uint32_t code = makwirfa_frame_check((const uint8_t *)text, length);

	if (code != answer) {
		printf("makwirfa_frame_check(%.*s): %u, not %u\n", (int)length, text, code, answer);
		wrong++;
	}
}

#define HEAD "[2,\"00017-00000003-0000-01\",\"TransactionEvent\",{\"eventType\":\"Started\","
#define TAIL                                                                          \
	"\"timestamp\":\"2026-03-01T09:00:00Z\",\"triggerReason\":\"CablePluggedIn\","  \
	"\"seqNo\":0,\"offline\":false,\"transactionInfo\":{\"transactionId\":\"00017-00000003\"}," \
	"\"meterValue\":[{\"timestamp\":\"2026-03-01T09:00:00Z\",\"sampledValue\":"      \
	"[{\"value\":1250,\"measurand\":\"Energy.Active.Import.Register\"}]}]}]"

int main(void)
{
	static const char frame[] = HEAD TAIL;
	static const char doubled[] = HEAD "\"seqNo\":0," TAIL;
	static const char at_odds[] = "[2,\"00017-00000003-0001-01\",\"TransactionEvent\",{\"eventType\":\"Started\"," TAIL;
	char spaces[1100];

	memset(spaces, ' ', sizeof spaces);
	memcpy(spaces, frame, strlen(frame));
	expect(frame, strlen(frame), MAKWIRFA_OK);
	expect(spaces, 1024, MAKWIRFA_OK);
	expect(spaces, 1025, MAKWIRFA_TEXT_TOO_LONG);
	expect("[[[[[[[[[", 9, MAKWIRFA_TOO_DEEP);
	expect(frame, strlen(frame) - 1, MAKWIRFA_NOT_JSON);
	expect("", 0, MAKWIRFA_NOT_JSON);
	expect("[]", 2, MAKWIRFA_NOT_A_FRAME);
	expect(doubled, strlen(doubled), MAKWIRFA_BAD_MEMBERS);
	expect(at_odds, strlen(at_odds), MAKWIRFA_BAD_VALUE);
	if (wrong == 0)
		printf("the frame check for C answers as its header says\n");
	return wrong != 0;
}
