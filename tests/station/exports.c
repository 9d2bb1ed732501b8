/* Every export, called by its prototype in station.h. */
#include "call.h"

#include <string.h>

/* An argument of a call: a slice is a pointer and a length. */
#define IN(i) call->inputs[i].at, call->inputs[i].count
#define N(i) call->numbers[i]
#define BUF call->buf.at, call->buf.count
#define IDS call->ids.at, call->ids.count
#define POSITION call->position.at, call->position.count
#define OUT call->out.at, call->out.count

#define EXPORTS(X)                                                                            \
    X(parse_header, IN(0), OUT)                                                               \
    X(write_header, N(0), N(1), N(2), N(3), N(4), N(5), BUF)                                  \
    X(is_whitespace, N(0))                                                                    \
    X(text, IN(0), OUT)                                                                       \
    X(parse_sql_batch, IN(0), OUT)                                                            \
    X(parse_transaction_manager_request, IN(0))                                               \
    X(parse_transaction_descriptor_header, IN(0), OUT)                                        \
    X(parse_fedauth_token, IN(0), OUT)                                                        \
    X(parse_rpc_request, IN(0), N(0), OUT)                                                    \
    X(capture_marks, IN(0), OUT)                                                              \
    X(parse_login7, IN(0), IDS, OUT)                                                          \
    X(database, IN(0), IN(1), OUT)                                                            \
    X(build_query_results, IN(0), BUF)                                                        \
    X(build_query_result, IN(0), BUF)                                                         \
    X(build_query_result_with_trailing_info, IN(0), BUF)                                      \
    X(build_query_result_with_extras, IN(0), BUF)                                             \
    X(build_query_results_in_packets, IN(0), N(0), BUF)                                       \
    X(cut_payload, IN(0), N(0), BUF)                                                          \
    X(room, IN(0))                                                                            \
    X(room_in_packets, IN(0), N(0))                                                           \
    X(fit, IN(0), OUT)                                                                        \
    X(fresh, POSITION)                                                                        \
    X(step, IN(0), POSITION, OUT)                                                             \
    X(payload, IN(0), BUF)                                                                    \
    X(read_label, IN(0), BUF)                                                                 \
    X(write_label, IN(0), BUF)                                                                \
    X(build_prelogin_response, BUF)                                                           \
    X(build_prelogin_response_with_encryption, N(0), BUF)                                     \
    X(build_prelogin_response_with_fedauth, N(0), N(1), BUF)                                  \
    X(build_prelogin_response_with_options, N(0), N(1), BUF)                                  \
    X(build_feature_ext_ack_fedauth, BUF)                                                     \
    X(build_feature_ext_ack_data_classification, N(0), BUF)                                   \
    X(build_feature_ext_ack, IN(0), BUF)                                                      \
    X(build_feature_ext_ack_enhanced_routing, N(0), BUF)                                      \
    X(build_fedauth_challenge_response, IN(0), IN(1), BUF)                                    \
    X(build_fedauth_info_token, IN(0), IN(1), BUF)                                            \
    X(build_login_ack, BUF)                                                                   \
    X(build_done_token_with_status, N(0), N(1), BUF)                                          \
    X(build_done_token, N(0), BUF)                                                            \
    X(build_attention_ack_packet, BUF)                                                        \
    X(build_transaction_manager_response, N(0), BUF)                                          \
    X(build_info_token, N(0), N(1), N(2), IN(0), IN(1), IN(2), N(3), BUF)                     \
    X(build_leading_error_tokens, N(0), N(1), IN(0), BUF)                                     \
    X(build_terminal_error_tokens, N(0), N(1), IN(0), BUF)                                    \
    X(build_error_response, IN(0), BUF)                                                       \
    X(build_routing_envchange_token, IN(0), N(0), BUF)                                        \
    X(build_enhanced_routing_envchange_token, IN(0), N(0), IN(1), BUF)                        \
    X(build_routing_response, IN(0), N(0), BUF)                                               \
    X(build_routing_login_response, IN(0), N(0), IN(1), N(1), N(2), N(3), BUF)

#define FUNCTION(name, ...)                          \
    static int64_t call_##name(const struct call *call) \
    {                                                \
        return station_##name(__VA_ARGS__);          \
    }
#define ROW(name, ...) {#name, call_##name},

EXPORTS(FUNCTION)

static const struct {
    const char *name;
    export function;
} exports[] = {EXPORTS(ROW)};

export export_named(const char *name)
{
    for (size_t i = 0; i < sizeof exports / sizeof exports[0]; i++)
        if (strcmp(exports[i].name, name) == 0)
            return exports[i].function;
    return NULL;
}
