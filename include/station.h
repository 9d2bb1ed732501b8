/* The station unit's calls for C: functions of the static library libstation.a.
 *
 * What a call is lent
 * - A slice is a pointer and the number of its elements. The pointer must be valid for that many elements, and a
 *   pointer to uint64_t must be aligned as uint64_t is. Where the number is 0 the pointer may be anything, NULL too.
 * - A slice that is written (`buf`, `ids`, `out`, `position`) must overlap no other slice of the call. Slices that are
 *   only read may overlap.
 * - A text is UTF-16, the lower byte of a unit first; its length is in bytes.
 *
 * What a call answers
 * - 0 or more, as said at each call; or -N for refusal N, and then nothing was written.
 * - `out` is lent for numbers. Its first slots are written, as many as the call's ..._SLOTS macro says, and the others
 *   are kept. Fewer slots than those is -20, after all other refusals.
 * - `buf` is lent for bytes, and the answer is how many were written to its front (of a label that is null, none: then
 *   it is STATION_NULL_LABEL); the others are kept. Fewer bytes than those is -20, after all other refusals.
 *
 * Nothing is kept from one call to the next, and no call allocates memory. docs/FORMATS.md has the formats and the
 * table of refusals, docs/EMBEDDING.md what to link and to lend. include/station.rs declares the same for Rust.
 */
#ifndef STATION_H
#define STATION_H

#include <stdbool.h>
#include <stddef.h>
#include <stdint.h>

#ifdef __cplusplus
extern "C" {
#endif

/* The version of these calls (CHANGELOG.md). An answer that changes changes the version. */
#define STATION_VERSION_MAJOR 5
#define STATION_VERSION_MINOR 0

/* The most bytes of a reply, and of a reply in packets: a `buf` of so many is never too short. */
#define STATION_MOST_REPLY 65535
#define STATION_MOST_PACKETS 66575

/* ---- Refusals: a call answers the negative of one. */

/* caused by the client */
#define STATION_BATCH_EMPTY 1          /* a batch is empty */
#define STATION_BATCH_TOO_SHORT 2      /* a batch has under 4 bytes */
#define STATION_HEADERS_PAST_END 3     /* the headers of a batch run past its end */
#define STATION_BATCH_NOT_UTF16 4      /* the text of a batch is not UTF-16 */
#define STATION_TOKEN_TOO_SHORT 5      /* a token message has under 8 bytes */
#define STATION_OUTER_LENGTH 6         /* the outer length of a token message is wrong */
#define STATION_INNER_LENGTH 7         /* the inner length of a token message is wrong */
#define STATION_HEADER_TOO_SHORT 8     /* a packet header has under 8 bytes */
#define STATION_UNKNOWN_PACKET_TYPE 9  /* the type of a packet is unknown */
#define STATION_NO_TRANSACTION_TYPE 10 /* a transaction request has no type */
#define STATION_CALL_CUT 29            /* the headers, the procedure or the flags of a procedure call are cut */
#define STATION_PARAMETER_CUT 30       /* a parameter is cut, its value's length wrong, or sp_executesql has none */
#define STATION_PARAMETER_NOT_READ 31  /* a parameter's type is not read, it is encrypted, or a second call follows */
#define STATION_HEADERS_TOO_SMALL 35   /* the headers length of a request is 0 to 3: it cannot hold its own four bytes */

/* caused by the author of a script or of a list of records */
#define STATION_RECORD_CUT 11      /* a record is cut */
#define STATION_KIND_WRONG 12      /* a kind is unknown or out of order, or a script has no set */
#define STATION_SHAPE_WRONG 13     /* a payload has a wrong shape */
#define STATION_TEXT_WRONG 14      /* a text of a record is not UTF-16 */
#define STATION_EMPTY_CHUNK 15     /* a chunk is empty */
#define STATION_NAME_TOO_LONG 16   /* a column, server or procedure name is over 255 units */
#define STATION_RESULT_TOO_LONG 17 /* a result is over 65,535 bytes, or a label over 65,535 characters */

/* caused by the caller; there is no refusal 19 */
#define STATION_INPUT_TOO_LONG 18    /* an input is over 65,536 bytes, packets or a label over 131,072: given by the
                                        programs, by no call */
#define STATION_BUFFER_TOO_SHORT 20  /* a lent buffer is too short */
#define STATION_ODD_TEXT 21          /* a text argument has an odd number of bytes */
#define STATION_NOT_UTF16 22         /* a text argument is not UTF-16 */
#define STATION_PACKET_SIZE 32       /* a packet size is under 512 or over 32,767 bytes */
#define STATION_UNIT_WITHOUT_BYTE 36 /* a unit of a label has no byte in Windows-1252 */

/* caused by the sender of a reply */
#define STATION_NOT_A_REPLY 23         /* a packet is not of type 04, or its length is under 9 or past the bytes lent */
#define STATION_CUT 24                 /* a reply or a label's value is cut, or a position stands nowhere in a reply */
#define STATION_UNKNOWN_TOKEN 25       /* a byte begins no token */
#define STATION_INNER_WRONG 26         /* an inner length or a type is wrong, or bytes follow the last DONE or a label */
#define STATION_TOO_MANY_COLUMNS 27    /* a set has over 128 columns */
#define STATION_ROW_WITHOUT_COLUMNS 28 /* a row stands in a set without columns */
#define STATION_NOT_THE_NEXT 33        /* a packet's number is not the next */
#define STATION_END_BIT_WRONG 34       /* bytes follow the end bit, or none follow and there is no end bit */

/* ---- Packets and texts */

/* The types of packets, and the bits of a packet's status. */
#define STATION_PACKET_SQL_BATCH 0x01
#define STATION_PACKET_RPC_REQUEST 0x03
#define STATION_PACKET_TABULAR_RESULT 0x04
#define STATION_PACKET_ATTENTION 0x06
#define STATION_PACKET_FEDAUTH_TOKEN 0x08
#define STATION_PACKET_TRANSACTION_MANAGER 0x0E
#define STATION_PACKET_LOGIN7 0x10
#define STATION_PACKET_PRELOGIN 0x12

#define STATION_STATUS_END_OF_MESSAGE 0x01
#define STATION_STATUS_IGNORE 0x02

/* The bytes of a packet header, and its slots. */
#define STATION_HEADER_BYTES 8

#define STATION_HEADER_SLOTS 6
#define STATION_HEADER_TYPE 0
#define STATION_HEADER_STATUS 1
#define STATION_HEADER_LENGTH 2 /* of the whole packet, its header too */
#define STATION_HEADER_SPID 3
#define STATION_HEADER_NUMBER 4
#define STATION_HEADER_WINDOW 5

/* The packet header at the front of some bytes.
 * 0: the header's slots.
 * -8 under 8 bytes, -9 a type that is not known.
 */
int64_t station_parse_header(const uint8_t *bytes, size_t bytes_len, uint64_t *out, size_t out_len);

/* A packet header, for the bare tokens that some calls hand out: write the tokens after its 8 bytes, and let `length`
 * count both. A reply has type 04, status 01, spid 0, number 1 and window 0.
 * 8: the bytes written.
 * -9 a type that is not known, -20 a `buf` under 8 bytes.
 */
int64_t station_write_header(uint8_t packet_type, uint8_t status, uint16_t length, uint16_t spid, uint8_t number,
                             uint8_t window, uint8_t *buf, size_t buf_len);

/* Whether a unit is white space, which trimming removes: 1 or 0. */
int64_t station_is_whitespace(uint16_t unit);

/* The slots of a text. */
#define STATION_TEXT_SLOTS 4
#define STATION_TEXT_UNITS 0
#define STATION_TEXT_CHARACTERS 1
#define STATION_TEXT_UTF8_BYTES 2
#define STATION_TEXT_HAS_PAIR 3 /* 1 where a surrogate pair stands in it, else 0 */

/* What a text counts.
 * 0: the text's slots.
 * -21 an odd number of bytes, -22 not UTF-16.
 */
int64_t station_text(const uint8_t *text, size_t text_len, uint64_t *out, size_t out_len);

/* ---- Requests and logins */

/* The slots of a part of an input: its bytes start at the input's byte START and are LENGTH many. */
#define STATION_PART_SLOTS 2
#define STATION_PART_START 0
#define STATION_PART_LENGTH 1

/* The SQL text of a batch, without white space at its ends, as a part of the body.
 * 0: the part's slots.
 * -1 empty, -2 under 4 bytes, -35 a headers length of 0 to 3, -3 headers past the end, -4 a text that is not UTF-16.
 */
int64_t station_parse_sql_batch(const uint8_t *body, size_t body_len, uint64_t *out, size_t out_len);

/* The types of transaction manager requests whose answer changes the transaction; the others are answered with DONE
 * alone.
 */
#define STATION_TRANSACTION_BEGIN 5
#define STATION_TRANSACTION_COMMIT 7
#define STATION_TRANSACTION_ROLLBACK 8

/* The type of a transaction manager request.
 * 0 or more: the type.
 * -10 a request under 4 bytes, -35 a headers length of 0 to 3, -10 a request without a type.
 */
int64_t station_parse_transaction_manager_request(const uint8_t *body, size_t body_len);

/* The slots of a transaction descriptor header. */
#define STATION_DESCRIPTOR_SLOTS 2
#define STATION_DESCRIPTOR_TRANSACTION 0 /* the transaction descriptor */
#define STATION_DESCRIPTOR_COUNT 1       /* the count of outstanding requests */

/* The transaction descriptor header of a request.
 * 1: the header's slots. 0: there is none, and `out` may be empty; so it is where the headers length cannot be.
 */
int64_t station_parse_transaction_descriptor_header(const uint8_t *body, size_t body_len, uint64_t *out,
                                                    size_t out_len);

/* The federated authentication token in a packet's payload, as a part of it.
 * 0: the part's slots.
 * -5 under 8 bytes, -6 a wrong outer length, -7 a wrong inner length.
 */
int64_t station_parse_fedauth_token(const uint8_t *payload, size_t payload_len, uint64_t *out, size_t out_len);

/* The slots of a procedure call; a part is one of the body. Slots that do not apply are 0. */
#define STATION_RPC_SLOTS 19
#define STATION_RPC_NAMED 0 /* 1: the procedure is called by its name; 0: by its number */
#define STATION_RPC_NAME_START 1
#define STATION_RPC_NAME_LENGTH 2
#define STATION_RPC_NUMBER 3
#define STATION_RPC_FLAGS 4
#define STATION_RPC_STATEMENT_START 5 /* of STATION_RPC_EXECUTESQL; or STATION_NO_PART, and then its length is 0 */
#define STATION_RPC_STATEMENT_LENGTH 6
#define STATION_RPC_FOUND 7 /* 1: there is a parameter of the number that was asked for; 0: none, and all below is 0 */
#define STATION_RPC_PARAMETER_NAME_START 8
#define STATION_RPC_PARAMETER_NAME_LENGTH 9
#define STATION_RPC_PARAMETER_STATUS 10
#define STATION_RPC_PARAMETER_CODE 11   /* 26, E7, A7 or A5 */
#define STATION_RPC_PARAMETER_LENGTH 12 /* of a value, or its most bytes; FFFF: Max */
#define STATION_RPC_PARAMETER_COLLATION_START 13
#define STATION_RPC_PARAMETER_COLLATION_LENGTH 14
#define STATION_RPC_VALUE_CASE 15   /* STATION_CASE_NULL, _NUMBER, _PART or _MAX, as of a cell */
#define STATION_RPC_VALUE_NUMBER 16 /* the bits of an int64_t */
#define STATION_RPC_VALUE_START 17
#define STATION_RPC_VALUE_LENGTH 18

/* The procedure whose first parameter is a statement to run: sp_executesql. */
#define STATION_RPC_EXECUTESQL 10

/* Bits of a parameter's status. */
#define STATION_PARAMETER_BY_REFERENCE 0x01
#define STATION_PARAMETER_DEFAULT 0x02

/* A stored procedure call, and its parameter of a number, from 0. The number changes the slots of the parameter alone:
 * ask for 0, 1, .. until FOUND is 0. Of sp_executesql the statement is the value's bytes of parameter 0, as they stand:
 * of a Max value its chunks, from the first length through the zero one; of null no bytes.
 * 0: the call's slots.
 * -29 a request under 4 bytes, -35 a headers length of 0 to 3, -29 headers, procedure or flags cut, -30 a parameter
 * cut, a wrong length in its value, or sp_executesql without a parameter, -31 a type that is not read, an encrypted
 * parameter, or a second call.
 */
int64_t station_parse_rpc_request(const uint8_t *body, size_t body_len, uint64_t number, uint64_t *out,
                                  size_t out_len);

/* The kind of the records of a capture, and the fewest bytes of one that is marked, its head among them. */
#define STATION_CAPTURE_KIND 0x0021
#define STATION_CAPTURE_MARKED_BYTES 10

/* Which records of a stored capture have a headers length that cannot be. A capture is a list of records, of each a
 * 4-byte length, a 2-byte kind and the body of one request; a record is marked where its body has four bytes or more and
 * the first four are a number of 0 to 3.
 * 0 or more: how many are marked. The first so many slots are their numbers, rising; records are numbered from 0.
 * -11 a record that is cut, -12 one of another kind: the first bad record's. -20 fewer slots than marks:
 * capture_len / STATION_CAPTURE_MARKED_BYTES slots are enough.
 */
int64_t station_capture_marks(const uint8_t *capture, size_t capture_len, uint64_t *out, size_t out_len);

/* The slots of a login; a part is one of the body. */
#define STATION_LOGIN_SLOTS 13
#define STATION_LOGIN_FEDAUTH 0 /* 1 or 0 */
#define STATION_LOGIN_LIBRARY 1
#define STATION_LOGIN_WORKFLOW 2               /* or STATION_NO_BYTE */
#define STATION_LOGIN_CLASSIFICATION_VERSION 3 /* or STATION_NO_BYTE */
#define STATION_LOGIN_SESSION 4                /* 1 or 0 */
#define STATION_LOGIN_TOKEN_START 5            /* or STATION_NO_PART, and then its length is 0 */
#define STATION_LOGIN_TOKEN_LENGTH 6
#define STATION_LOGIN_SERVER_START 7 /* or STATION_NO_PART */
#define STATION_LOGIN_SERVER_LENGTH 8
#define STATION_LOGIN_USER_AGENT_START 9 /* or STATION_NO_PART */
#define STATION_LOGIN_USER_AGENT_LENGTH 10
#define STATION_LOGIN_DATABASE_START 11 /* or STATION_NO_PART */
#define STATION_LOGIN_DATABASE_LENGTH 12

/* The value of a slot where there is no byte, and where there is no part. An empty text is a part: its start is a place
 * in the body, and its length 0.
 */
#define STATION_NO_BYTE 256
#define STATION_NO_PART (~(uint64_t)0)

/* What a login says; its feature ids go to the first elements of `ids`.
 * 0 or more, the number of feature ids: the login's slots.
 * -20 fewer elements of `ids` than feature ids, too.
 */
int64_t station_parse_login7(const uint8_t *body, size_t body_len, uint8_t *ids, size_t ids_len, uint64_t *out,
                             size_t out_len);

/* The database to open, the login's own or, where it has none, the fallback.
 * 0: the part's slots, in the body. 1: the part's slots, in the fallback, which is the whole of it.
 */
int64_t station_database(const uint8_t *body, size_t body_len, const uint8_t *fallback, size_t fallback_len,
                         uint64_t *out, size_t out_len);

/* ---- Scripts and their replies */

/* A record is the length of its payload (4 bytes), its kind (2 bytes) and the payload, the lower byte first. The
 * kinds of a script's records.
 */
#define STATION_RECORD_SET 1
#define STATION_RECORD_COLUMN 2
#define STATION_RECORD_INFO 3
#define STATION_RECORD_ROW 4
#define STATION_RECORD_CELL 5
#define STATION_RECORD_CHUNK 6
#define STATION_RECORD_LEADING_ERROR 7
#define STATION_RECORD_TERMINAL_ERROR 8
#define STATION_RECORD_TRAILING_INFO 9

/* The type byte of a column's record. */
#define STATION_TYPE_TINYINT 1
#define STATION_TYPE_SMALLINT 2
#define STATION_TYPE_INT 3
#define STATION_TYPE_BIGINT 4
#define STATION_TYPE_NVARCHAR 5
#define STATION_TYPE_NVARCHAR_MAX 6
#define STATION_TYPE_VARCHAR_MAX 7
#define STATION_TYPE_VARBINARY_MAX 8

/* The value byte of a cell's record. */
#define STATION_VALUE_TINYINT 1
#define STATION_VALUE_SMALLINT 2
#define STATION_VALUE_INT 3
#define STATION_VALUE_BIGINT 4
#define STATION_VALUE_NVARCHAR 5
#define STATION_VALUE_NVARCHAR_MAX 6
#define STATION_VALUE_MAX_NULL 7 /* the null of all three Max types */
#define STATION_VALUE_VARCHAR_MAX 8
#define STATION_VALUE_VARBINARY_MAX 9
#define STATION_VALUE_NULL 10 /* the null of the integer types */

/* The reply packet of a script. Four names of one call, as the Rust has them.
 * 0 or more: the bytes written.
 * -11 to -17, and -20 a `buf` that is too short: `station_room` says how long it must be.
 */
int64_t station_build_query_results(const uint8_t *script, size_t script_len, uint8_t *buf, size_t buf_len);
int64_t station_build_query_result(const uint8_t *script, size_t script_len, uint8_t *buf, size_t buf_len);
int64_t station_build_query_result_with_trailing_info(const uint8_t *script, size_t script_len, uint8_t *buf,
                                                      size_t buf_len);
int64_t station_build_query_result_with_extras(const uint8_t *script, size_t script_len, uint8_t *buf, size_t buf_len);

/* The packet sizes that can be agreed at login, header included, and the most bytes of a payload. */
#define STATION_LEAST_PACKET_SIZE 512
#define STATION_MOST_PACKET_SIZE 32767
#define STATION_MOST_PAYLOAD 65527

/* The same reply in packets of a size, one after another: all but the last have `size` bytes, none has an empty payload,
 * their numbers rise from 1, and the end bit is on the last only. Their payloads joined are that of the one packet.
 * 0 or more: the bytes written, of all packets.
 * -32 a size under 512 or over 32,767, before all others; -11 to -17 as above; -20 a `buf` that is too short for all:
 * `station_room_in_packets` says how long it must be.
 */
int64_t station_build_query_results_in_packets(const uint8_t *script, size_t script_len, size_t size, uint8_t *buf,
                                               size_t buf_len);

/* The payload of any other reply in such packets. For a packet, lend what follows its header; bare tokens are payloads.
 * An empty payload becomes no packet.
 * 0 or more: the bytes written, of all packets.
 * -32 as above, -17 a payload over 65,527 bytes, -20 a `buf` that is too short for all.
 */
int64_t station_cut_payload(const uint8_t *payload, size_t payload_len, size_t size, uint8_t *buf, size_t buf_len);

/* Room to lend for the reply of a script, exactly its length: a `buf` of as many bytes is never refused with -20, one of a
 * byte less always is.
 * 0 or more: bytes.
 * -11 to -17 as above.
 */
int64_t station_room(const uint8_t *script, size_t script_len);

/* The same for the reply in packets of a size: exactly the sum of all packets with their headers.
 * 0 or more: bytes.
 * -32 as above, before all others; -11 to -17.
 */
int64_t station_room_in_packets(const uint8_t *script, size_t script_len, size_t size);

/* The slots of a misfit; sets, rows and columns count from 0, and a slot is 0 where there is none. */
#define STATION_FIT_SLOTS 4
#define STATION_FIT_KIND 0
#define STATION_FIT_SET 1
#define STATION_FIT_ROW 2
#define STATION_FIT_COLUMN 3

/* The kinds of misfits. */
#define STATION_MISFIT_CLASSIFICATION 1
#define STATION_MISFIT_COLUMN 2
#define STATION_MISFIT_CELL 3

/* Whether a script fits: the reply of one that does is read back as exactly the script's tokens.
 * 0: it fits, and `out` may be empty. 1: the slots of its first misfit: by set; in a set the classification, then columns, then
 * cells by row and column. In a row a wrong cell comes before a wrong count of cells. Of too many columns it is column 128.
 * -11 to -17 as above.
 */
int64_t station_fit(const uint8_t *script, size_t script_len, uint64_t *out, size_t out_len);

/* ---- The reply reader: a token a step */

/* The slots of a position. Their layout is not promised: lend them to `station_fresh`, then to each `station_step`. */
#define STATION_POSITION_SLOTS 134

/* The position of a reader that has read nothing.
 * 0: it stands in the first slots of `position`.
 * -20 fewer slots than STATION_POSITION_SLOTS.
 */
int64_t station_fresh(uint64_t *position, size_t position_len);

/* The slots of a step: the token's kind, and its fields by the kind. A slot that a kind does not name is 0. A part is
 * one of the payload, which is what the packets hold without their headers: its start counts no header's bytes.
 */
#define STATION_STEP_SLOTS 11
#define STATION_STEP_KIND 0

#define STATION_TOKEN_COLMETADATA 0x81
#define STATION_COLMETADATA_COUNT 1 /* so many columns follow */

#define STATION_TOKEN_COLUMN 0x01
#define STATION_COLUMN_USER_TYPE 1
#define STATION_COLUMN_FLAGS 2
#define STATION_COLUMN_CODE 3   /* 26, E7, A7 or A5 */
#define STATION_COLUMN_LENGTH 4 /* of a value, or its most bytes; FFFF: Max */
#define STATION_COLUMN_COLLATION_START 5
#define STATION_COLUMN_COLLATION_LENGTH 6
#define STATION_COLUMN_NAME_START 7
#define STATION_COLUMN_NAME_LENGTH 8

#define STATION_TOKEN_ROW 0xD1 /* a cell for each column follows */

#define STATION_TOKEN_CELL 0x02
#define STATION_CELL_CASE 1 /* one of the four below */
#define STATION_CELL_NUMBER 2
#define STATION_CELL_START 2
#define STATION_CELL_LENGTH 3

#define STATION_CASE_NULL 0
#define STATION_CASE_NUMBER 1 /* as int64_t; NUMBER is its bits */
#define STATION_CASE_PART 2
#define STATION_CASE_MAX 3 /* chunks: 4 bytes of length, the lower byte first, and the bytes; the last has length 0 */

#define STATION_TOKEN_DONE 0xFD
#define STATION_DONE_STATUS 1
#define STATION_DONE_COMMAND 2
#define STATION_DONE_COUNT 3

#define STATION_DONE_MORE 0x0001        /* a bit of the status: a set follows */
#define STATION_DONE_ERROR 0x0002       /* a bit of the status: an error came before */
#define STATION_DONE_COUNT_VALID 0x0010 /* a bit of the status: the row count is valid */

#define STATION_TOKEN_ERROR 0xAA /* and STATION_TOKEN_INFO */
#define STATION_TOKEN_INFO 0xAB
#define STATION_MESSAGE_NUMBER 1
#define STATION_MESSAGE_STATE 2
#define STATION_MESSAGE_CLASS 3
#define STATION_MESSAGE_LINE 4
#define STATION_MESSAGE_TEXT_START 5
#define STATION_MESSAGE_TEXT_LENGTH 6
#define STATION_MESSAGE_SERVER_START 7
#define STATION_MESSAGE_SERVER_LENGTH 8
#define STATION_MESSAGE_PROCEDURE_START 9
#define STATION_MESSAGE_PROCEDURE_LENGTH 10

/* The next token of a reply, whose packets stand one after another. They must be the same at each step of a run.
 * 1: the step's slots, and `position` is after the token. 0: the end; `out` may be empty, and `position` is kept.
 * -8 and -9 as `station_parse_header`, -23 and -33 of each header up to where the step reads; -24 a position that stands
 * nowhere in the packets, too, whatever its slots; -25 to -28; -34; -20 fewer slots of `out` or of `position`.
 */
int64_t station_step(const uint8_t *packets, size_t packets_len, uint64_t *position, size_t position_len, uint64_t *out,
                     size_t out_len);

/* The payload of a reply: what its packets hold without their headers, joined, so that a part that stands in several
 * packets can be taken. A `buf` of as many bytes as the packets is never too short.
 * The packets 04 00 000A 0000 01 00 81 01 and 04 01 0009 0000 02 00 FD, lent one after another, give 81 01 FD and 3.
 * 0 or more: the bytes written.
 * -8, -9, -23, -33 and -34 as above, of what stops the packets; -20 a `buf` that is too short.
 */
int64_t station_payload(const uint8_t *packets, size_t packets_len, uint8_t *buf, size_t buf_len);

/* ---- Event labels
 *
 * A label is a VARCHAR(MAX) in Windows-1252. Its value is a total of 8 bytes, the lower byte first, and chunks as those
 * of STATION_CASE_MAX: of such a cell it is the part and the 8 bytes before it. The total FFFFFFFFFFFFFFFF is null, and
 * nothing follows it; FFFFFFFFFFFFFFFE is one that is not known. A byte is a character, by the index windows-1252 of the
 * WHATWG Encoding Standard: 81, 8D, 8F, 90 and 9D are U+0081 and so on.
 */

/* The most bytes of a label's text and of its value: a `buf` of so many is never too short. */
#define STATION_MOST_LABEL_TEXT 131070
#define STATION_MOST_LABEL_VALUE 65551

/* The answer for a value that is null. */
#define STATION_NULL_LABEL 4294967296

/* The text of a label's value.
 * The value FEFFFFFFFFFFFFFF 01000000 80 00000000 gives AC20, the euro sign, and 2.
 * 0 or more: the bytes written, two a character. STATION_NULL_LABEL: it is null, and `buf` may be empty.
 * -24 a value that is cut, -26 one that is ill-formed or that bytes follow, by the first byte that is wrong; -17 over
 * 65,535 characters; -20 a `buf` that is too short: twice the bytes of the value are enough.
 */
int64_t station_read_label(const uint8_t *value, size_t value_len, uint8_t *buf, size_t buf_len);

/* The value of a label's text, of known total and one chunk, or none where the text is empty.
 * The text AC20 gives 0100000000000000 01000000 80 00000000 and 17.
 * 0 or more: the bytes written: 12 of an empty text, of another 16 and one a character.
 * -21 an odd number of bytes, -36 a unit that no byte stands for, such as a surrogate, -17 over 65,535 characters, -20 a
 * `buf` that is too short.
 */
int64_t station_write_label(const uint8_t *text, size_t text_len, uint8_t *buf, size_t buf_len);

/* ---- Other replies
 *
 * Each call says whether it hands out a packet or tokens, which need a header (`station_write_header`) before them.
 * In this order: -21 an odd number of bytes, then -22 not UTF-16, of each text argument from left to right; of a list
 * of records -11 one that is cut, -12 of another kind, -13 of a wrong shape, -14 whose text is not UTF-16; -16 an
 * info's server or procedure name over 255 units; -17 over 65,535 bytes; -20 a `buf` that is too short.
 */

/* Packet: the answer to a prelogin: encryption on, or not supported; federated authentication on, or not mentioned. A
 * bool that a call does not take is false.
 */
int64_t station_build_prelogin_response(uint8_t *buf, size_t buf_len);
int64_t station_build_prelogin_response_with_encryption(bool supports_encryption, uint8_t *buf, size_t buf_len);
int64_t station_build_prelogin_response_with_fedauth(bool supports_encryption, bool supports_fedauth, uint8_t *buf,
                                                     size_t buf_len);
int64_t station_build_prelogin_response_with_options(bool supports_encryption, bool supports_fedauth, uint8_t *buf,
                                                     size_t buf_len);

/* The kind of a feature's record: an id (1 byte) and its data. */
#define STATION_RECORD_FEATURE 0x0013

/* Token: FEATUREEXTACK of federated authentication, of data classification at a version, of a list of features (records
 * one after another, or none), and of enhanced routing.
 */
int64_t station_build_feature_ext_ack_fedauth(uint8_t *buf, size_t buf_len);
int64_t station_build_feature_ext_ack_data_classification(uint8_t version, uint8_t *buf, size_t buf_len);
int64_t station_build_feature_ext_ack(const uint8_t *features, size_t features_len, uint8_t *buf, size_t buf_len);
int64_t station_build_feature_ext_ack_enhanced_routing(uint8_t is_enabled, uint8_t *buf, size_t buf_len);

/* Packet: FEATUREEXTACK of federated authentication and FEDAUTHINFO, without a DONE: the client's token comes next. */
int64_t station_build_fedauth_challenge_response(const uint8_t *sts_url, size_t sts_url_len, const uint8_t *spn,
                                                 size_t spn_len, uint8_t *buf, size_t buf_len);

/* Token: FEDAUTHINFO. */
int64_t station_build_fedauth_info_token(const uint8_t *sts_url, size_t sts_url_len, const uint8_t *spn,
                                         size_t spn_len, uint8_t *buf, size_t buf_len);

/* Tokens: LOGINACK, and the ENVCHANGEs of collation, database and packet size. They always name the server
 * MockTdsServer, the database master and packets of 4096 bytes, whatever the login asked for. A packet of them must
 * end with a DONE (`station_build_done_token`).
 */
int64_t station_build_login_ack(uint8_t *buf, size_t buf_len);

/* Token: DONE with a status, and with status 0: nothing follows, and the row count is not said to be valid. */
int64_t station_build_done_token_with_status(uint16_t status, uint64_t row_count, uint8_t *buf, size_t buf_len);
int64_t station_build_done_token(uint64_t row_count, uint8_t *buf, size_t buf_len);

/* Packet: what answers an attention. */
int64_t station_build_attention_ack_packet(uint8_t *buf, size_t buf_len);

/* Tokens: what answers a transaction manager request of a type: ENVCHANGE and DONE for the three types above, DONE
 * alone for all others.
 */
int64_t station_build_transaction_manager_response(uint16_t request_type, uint8_t *buf, size_t buf_len);

/* Token: INFO. */
int64_t station_build_info_token(uint32_t number, uint8_t state, uint8_t severity, const uint8_t *message,
                                 size_t message_len, const uint8_t *server_name, size_t server_name_len,
                                 const uint8_t *proc_name, size_t proc_name_len, uint32_t line_number, uint8_t *buf,
                                 size_t buf_len);

/* Tokens: ERROR and DONE, of an error after which the reply goes on (status 0003), and of one that ends it (0002). */
int64_t station_build_leading_error_tokens(uint32_t number, uint8_t severity, const uint8_t *message,
                                           size_t message_len, uint8_t *buf, size_t buf_len);
int64_t station_build_terminal_error_tokens(uint32_t number, uint8_t severity, const uint8_t *message,
                                            size_t message_len, uint8_t *buf, size_t buf_len);

/* Packet: ERROR 50000 and DONE, as the Rust writes it: the length of the ERROR with its higher byte first, and the
 * text's count in bytes of UTF-8.
 * DO NOT SEND IT TO FREETDS: it waits without end for the bytes of that length. Send a header and the tokens of
 * `station_build_terminal_error_tokens`, or the reply of a script with a terminal error: FreeTDS reads both.
 */
int64_t station_build_error_response(const uint8_t *message, size_t message_len, uint8_t *buf, size_t buf_len);

/* Token: ENVCHANGE of a plain route, and of a route to a database. */
int64_t station_build_routing_envchange_token(const uint8_t *redirect_host, size_t redirect_host_len,
                                              uint16_t redirect_port, uint8_t *buf, size_t buf_len);
int64_t station_build_enhanced_routing_envchange_token(const uint8_t *redirect_host, size_t redirect_host_len,
                                                       uint16_t redirect_port, const uint8_t *database,
                                                       size_t database_len, uint8_t *buf, size_t buf_len);

/* The kinds of a route's record: a plain route, without a payload, and one to a database, whose payload is its text. */
#define STATION_RECORD_PLAIN_ROUTE 0x0011
#define STATION_RECORD_DATABASE_ROUTE 0x0012

/* The value of `ack` for no acknowledgement of enhanced routing; values above it too. */
#define STATION_NO_ACK 256

/* Packet: the answer to a login that is sent to another server, by one plain route, or by a list of routes (records one
 * after another, or none). With `login_ack` the tokens of `station_build_login_ack` come first. `ack` is the byte that
 * acknowledges enhanced routing; that token stands before the routes or after them. DONE is the last.
 */
int64_t station_build_routing_response(const uint8_t *redirect_host, size_t redirect_host_len, uint16_t redirect_port,
                                       uint8_t *buf, size_t buf_len);
int64_t station_build_routing_login_response(const uint8_t *redirect_host, size_t redirect_host_len,
                                             uint16_t redirect_port, const uint8_t *routes, size_t routes_len,
                                             bool login_ack, uint16_t ack, bool ack_before_routing, uint8_t *buf,
                                             size_t buf_len);

#ifdef __cplusplus
}
#endif

#endif
