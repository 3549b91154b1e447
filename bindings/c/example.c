/* Every call of mirvoncle.h, on examples of document 01 and of tests/judge.txt. example.stdout holds what it prints. */
#include <inttypes.h>
#include <stdio.h>

#include "mirvoncle.h"

/* The bytes of a literal without its final 0, and how many they are. A byte 0 inside is a byte like any other. */
#define LENT(literal) ((const uint8_t *)(literal)), (sizeof(literal) - 1)

static void read_as(const char *what, uint8_t code)
{
    if (code == 0) {
        printf("%s: accepted\n", what);
    } else if (code == MIRVONCLE_NOT_BINARY) {
        printf("%s: not binary\n", what);
    } else {
        printf("%s: refused %u\n", what, (unsigned)code);
    }
}

/* Which field, and why, by the words of `replay`. */
static void refused_as(const char *what, uint64_t number, uint64_t field, uint64_t reason)
{
    static const char *const reasons[] = {"", " empty", " byte", " large", " list"};

    printf("%s: refused %" PRIu64, what, number);
    if (field != 0) {
        printf(" field %" PRIu64 "%s", field, reasons[reason]);
    }
    printf("\n");
}

/* An answer that carries no field as the plain call has it. */
static void read_why(const char *what, uint32_t why)
{
    if (MIRVONCLE_FIELD(why) == 0) {
        read_as(what, MIRVONCLE_NUMBER(why));
    } else {
        refused_as(what, MIRVONCLE_NUMBER(why), MIRVONCLE_FIELD(why), MIRVONCLE_REASON(why));
    }
}

static void frame_as(const char *what, const uint8_t *buf, size_t code)
{
    size_t i;

    if (code >= MIRVONCLE_REFUSED) {
        printf("%s: refused %u\n", what, (unsigned)(code - MIRVONCLE_REFUSED));
        return;
    }
    printf("%s:", what);
    for (i = 0; i < code; i++) {
        printf(" %02X", (unsigned)buf[i]);
    }
    printf("\n");
}

/* The calls that answer with a number alone. */
static void numbers(void)
{
    uint8_t buf[16] = {0};

    read_as("start frame", mirvoncle_frame(LENT("\xAA\x00\x02\x00\x71\x55")));
    read_as("frame with a wrong length", mirvoncle_frame(LENT("\xAA\x00\x05\x00\x31\x01\x07\x55")));
    read_as("W26 +UUDPD:65535", mirvoncle_w26(LENT("\r\n+UUDPD:65535\r\n")));
    read_as("W26 +UUDPD:65536", mirvoncle_w26(LENT("\r\n+UUDPD:65536\r\n")));
    read_as("W36 +UEWSNU", mirvoncle_w36(LENT("\r\n+UEWSNU\r\n\r\n+UESOC:1\r\n")));
    read_as("W36 line without a name", mirvoncle_w36(LENT("\r\n\r\n")));
    read_as("W36 binary +UESODB:2", mirvoncle_w36_binary(LENT("\r\n+UESODB:2\x01\x00\x01\xFF")));
    read_as("W36 binary +UESODB:2 without data", mirvoncle_w36_binary(LENT("\r\n+UESODB:2")));
    read_as("W36 binary +UEWSNU", mirvoncle_w36_binary(LENT("\r\n+UEWSNU\r\n")));
    read_as("response +A OK", mirvoncle_response(LENT("\r\n+A\r\nOK\r\n")));
    read_as("response without CR LF", mirvoncle_response(LENT("OK")));
    read_why("W26 protocol 9", mirvoncle_w26_why(LENT("\r\n+UUDPC:1,2,9,a,1,b,2\r\n")));
    read_why("W26 +UUDPD:65536", mirvoncle_w26_why(LENT("\r\n+UUDPD:65536\r\n")));
    read_why("W36 +UESODA:1", mirvoncle_w36_why(LENT("\r\n+UESODA:1\r\n")));
    read_why("W36 line without a name", mirvoncle_w36_why(LENT("\r\n\r\n")));
    read_why("W36 binary +UESODB:2,7", mirvoncle_w36_binary_why(LENT("\r\n+UESODB:2,7\x01\x00\x00")));
    read_why("frame with +UUND:", mirvoncle_frame_why(LENT("\xAA\x00\x0C\x00\x41\r\n+UUND:\r\n\x55")));
    printf("UTF-8 before a surrogate: %u\n", (unsigned)mirvoncle_utf8_prefix(LENT("A\xED\xA0\x80")));

    frame_as("data on channel 3", buf, mirvoncle_write_data(buf, sizeof buf, 3, LENT("A")));
    frame_as("request AT", buf, mirvoncle_write_request(buf, sizeof buf, LENT("AT")));
    frame_as("request that is not UTF-8", buf, mirvoncle_write_request(buf, sizeof buf, LENT("\xFF")));
    frame_as("resend", buf, mirvoncle_write_resend(buf, sizeof buf));
    frame_as("resend into 5 bytes", buf, mirvoncle_write_resend(buf, 5));
}

/* Between quotes, a byte that is not printable as \x and two digits. */
static void print_bytes(const uint8_t *s, size_t len)
{
    size_t i;

    printf("\"");
    for (i = 0; i < len; i++) {
        if (s[i] < 0x20 || s[i] > 0x7E) {
            printf("\\x%02X", (unsigned)s[i]);
        } else {
            printf("%c", s[i]);
        }
    }
    printf("\"");
}

/* A text of an answer needs no test: it lies inside the bytes that were read. */
static void print_text(const char *name, const uint8_t *s, struct mirvoncle_text text)
{
    printf(" %s ", name);
    print_bytes(s + text.place, text.len);
}

/* An IPv4 address, whose length is always 4. */
static void print_addr(const char *name, const uint8_t *s, struct mirvoncle_text addr)
{
    const uint8_t *byte = s + addr.place;

    printf(" %s %u.%u.%u.%u", name, (unsigned)byte[0], (unsigned)byte[1], (unsigned)byte[2], (unsigned)byte[3]);
}

static void print_w26(const uint8_t *s, const struct mirvoncle_w26_event *event)
{
    switch (event->which) {
    case MIRVONCLE_W26_PeerConnectedIP:
        printf(" PeerConnectedIP peer %" PRIu64 " type %" PRIu64, event->of.PeerConnectedIP.peer_handle,
               event->of.PeerConnectedIP.type);
        printf(" protocol %" PRIu64, event->of.PeerConnectedIP.protocol);
        print_text("local", s, event->of.PeerConnectedIP.local_address);
        printf(" port %" PRIu64, event->of.PeerConnectedIP.local_port);
        print_text("remote", s, event->of.PeerConnectedIP.remote_address);
        printf(" port %" PRIu64, event->of.PeerConnectedIP.remote_port);
        break;
    case MIRVONCLE_W26_PeerDisconnected:
        printf(" PeerDisconnected peer %" PRIu64, event->of.PeerDisconnected.peer_handle);
        break;
    default:
        printf(" W26 event %" PRIu64, event->which);
    }
}

static void print_w36(const uint8_t *s, const struct mirvoncle_w36_event *event)
{
    switch (event->which) {
    case MIRVONCLE_W36_SocketConnected:
        printf(" SocketConnected socket %" PRIu64, event->of.SocketConnected.socket_id);
        break;
    case MIRVONCLE_W36_StationNetworkUp:
        printf(" StationNetworkUp");
        break;
    case MIRVONCLE_W36_SocketDataBinary:
        printf(" SocketDataBinary socket %" PRIu64, event->of.SocketDataBinary.socket_id);
        print_text("data", s, event->of.SocketDataBinary.data);
        break;
    default:
        printf(" W36 event %" PRIu64, event->which);
    }
}

static void print_response(const uint8_t *s, const struct mirvoncle_response *response)
{
    if (response->which == MIRVONCLE_RESPONSE_Error) {
        printf(" Error");
    } else {
        print_text(response->which == MIRVONCLE_RESPONSE_Ok ? "Ok" : "Other", s, response->text);
    }
}

static void print_packet(const uint8_t *s, const struct mirvoncle_packet *packet)
{
    switch (packet->id) {
    case MIRVONCLE_PACKET_ConnectEvent:
        printf(" ConnectEvent channel %" PRIu64, packet->of.ConnectEvent.channel);
        printf(" protocol %" PRIu64, packet->of.ConnectEvent.protocol);
        print_addr("remote", s, packet->of.ConnectEvent.remote_addr);
        printf(" port %" PRIu64, packet->of.ConnectEvent.remote_port);
        print_addr("local", s, packet->of.ConnectEvent.local_addr);
        printf(" port %" PRIu64, packet->of.ConnectEvent.local_port);
        break;
    case MIRVONCLE_PACKET_DataEvent:
        printf(" DataEvent channel %" PRIu64, packet->of.DataEvent.channel);
        print_text("data", s, packet->of.DataEvent.data);
        break;
    case MIRVONCLE_PACKET_ATEvent:
        printf(" ATEvent");
        print_w26(s, &packet->of.ATEvent);
        break;
    case MIRVONCLE_PACKET_ATResponse:
        printf(" ATResponse");
        print_response(s, &packet->of.ATResponse);
        break;
    default:
        printf(" packet %" PRIX64, packet->id);
    }
}

static void read_frame(const char *what, const uint8_t *s, size_t len)
{
    union mirvoncle_packet_row answer;

    if (mirvoncle_read_frame(s, len, answer.row, MIRVONCLE_ROW) != 0) {
        refused_as(what, answer.refused.number, answer.refused.field, answer.refused.reason);
        return;
    }
    printf("%s:", what);
    print_packet(s, &answer.good.packet);
    printf("\n");
}

static void read_w26(const char *what, const uint8_t *s, size_t len)
{
    union mirvoncle_w26_row answer;

    if (mirvoncle_read_w26(s, len, answer.row, MIRVONCLE_ROW) != 0) {
        refused_as(what, answer.refused.number, answer.refused.field, answer.refused.reason);
        return;
    }
    printf("%s:", what);
    print_w26(s, &answer.good.event);
    printf("\n");
}

static void read_response(const char *what, const uint8_t *s, size_t len)
{
    union mirvoncle_response_row answer;

    if (mirvoncle_read_response(s, len, answer.row, MIRVONCLE_ROW) != 0) {
        refused_as(what, answer.refused.number, answer.refused.field, answer.refused.reason);
        return;
    }
    printf("%s:", what);
    print_response(s, &answer.good.response);
    printf("\n");
}

/* What one of the W36 reads returned, and the row that it filled. */
static void w36_as(const char *what, const uint8_t *s, uint8_t number, const union mirvoncle_w36_row *answer)
{
    if (number == MIRVONCLE_NOT_BINARY) {
        printf("%s: not binary\n", what);
    } else if (number != 0) {
        refused_as(what, answer->refused.number, answer->refused.field, answer->refused.reason);
    } else {
        printf("%s:", what);
        print_w36(s, &answer->good.event);
        printf(" past %zu\n", mirvoncle_w36_past(answer));
    }
}

/* Every event of one W36 buffer. */
static void walk(const char *what, const uint8_t *s, size_t len)
{
    union mirvoncle_w36_row answer;
    uint8_t number;
    size_t at = 0;

    while ((number = mirvoncle_read_w36_step(s, len, at, answer.row, MIRVONCLE_ROW)) == 0) {
        w36_as(what, s, number, &answer);
        at = mirvoncle_w36_past(&answer);
    }
    if (number == MIRVONCLE_END) {
        printf("%s: end\n", what);
    } else {
        w36_as(what, s, number, &answer);
        printf("%s: the refused event begins at %" PRIu64 "\n", what, answer.refused.begins);
    }
}

/* The calls that fill a row. */
static void rows_read(void)
{
    static const uint8_t station[] = "\r\n+UEWSNU\r\n\r\n+UESOC:1\r\n", data[] = "\r\n+UESODB:2\x01\x00\x01\xFF";
    union mirvoncle_w36_row answer;

    read_frame("row of a data frame", LENT("\xAA\x00\x04\x00\x36\x03\x41\x55"));
    read_frame("row of a connect frame",
               LENT("\xAA\x00\x11\x00\x11\x03\x02\x00\x7F\x00\x00\x01\x00\x50\xFF\xFE\xFD\xFC\xFF\xFF\x55"));
    read_frame("row of a frame with +UUDPC",
               LENT("\xAA\x00\x32\x00\x41\r\n+UUDPC:1,2,1,192.168.0.5,5000,10.0.0.2,65535\r\n\x55"));
    read_frame("row of a frame with a response", LENT("\xAA\x00\x0C\x00\x45\r\n+A\r\nOK\r\n\x55"));
    read_frame("row of a start frame", LENT("\xAA\x00\x02\x00\x71\x55"));
    read_frame("row of a frame of 2 bytes", LENT("\xAA\x55"));
    read_w26("row of W26 +UUDPC", LENT("\r\n+UUDPC:+007,3,6,,0,::1,00080\r\n"));
    read_w26("row of W26 +UUDPD", LENT("\r\n+UUDPD:+007\r\n"));
    read_w26("row of W26 protocol 9", LENT("\r\n+UUDPC:1,2,9,a,1,b,2\r\n"));
    w36_as("row of W36 +UEWSNU", station, mirvoncle_read_w36(station, sizeof station - 1, answer.row, MIRVONCLE_ROW), &answer);
    w36_as("row of W36 +UESODB", data, mirvoncle_read_w36_binary(data, sizeof data - 1, answer.row, MIRVONCLE_ROW), &answer);
    w36_as("row of W36 +UEWSNU as binary", station,
           mirvoncle_read_w36_binary(station, sizeof station - 1, answer.row, MIRVONCLE_ROW), &answer);
    walk("W36 walk", station, sizeof station - 1);
    walk("W36 walk to +UESOC:x", LENT("\r\n+UESOC:1\r\n\r\n+UESOC:x\r\n"));
    read_response("row of response +A OK", LENT("\r\n+A\r\nOK\r\n"));
    read_response("row of response ERROR", LENT("\r\nERROR\r\n"));
    read_as("row of 16 numbers", mirvoncle_read_w36(station, sizeof station - 1, answer.row, MIRVONCLE_ROW - 1));
}

static void line_as(const char *what, const uint8_t *buf, size_t code)
{
    if (code >= MIRVONCLE_LINE_REFUSED) {
        printf("%s: refused %u\n", what, (unsigned)(code - MIRVONCLE_LINE_REFUSED));
        return;
    }
    printf("%s: ", what);
    print_bytes(buf, code);
    printf("\n");
}

/* A line as the writer has it: the numbers plain, the texts where they stood. */
static void again(const char *what, const uint8_t *s, size_t len)
{
    union mirvoncle_w26_row event;
    uint8_t buf[64];

    if (mirvoncle_read_w26(s, len, event.row, MIRVONCLE_ROW) == 0) {
        line_as(what, buf, mirvoncle_write_w26(buf, sizeof buf, s, len, event.row, MIRVONCLE_ROW));
    }
}

static void lines_written(void)
{
    uint8_t buf[64] = {0};
    union mirvoncle_w26_row station = {
        .good.event.which = MIRVONCLE_W26_WifiAccessPointStationConnected,
        .good.event.of.WifiAccessPointStationConnected = {.id = 0, .mac_addr = {.place = 0, .len = 2}},
    };
    union mirvoncle_w36_row socket = {
        .good.event.which = MIRVONCLE_W36_SocketConnected,
        .good.event.of.SocketConnected = {.socket_id = 1},
    };
    union mirvoncle_w36_row data = {
        .good.event.which = MIRVONCLE_W36_SocketDataBinary,
        .good.event.of.SocketDataBinary = {.socket_id = 2, .data = {.place = 0, .len = 1}},
    };

    again("W26 line read and written", LENT("\r\n+UUDPC:+007,3,6,,0,::1,00080\r\n"));
    line_as("W26 line", buf, mirvoncle_write_w26(buf, sizeof buf, LENT("AB"), station.row, MIRVONCLE_ROW));
    line_as("W26 text with a comma", buf, mirvoncle_write_w26(buf, sizeof buf, LENT("A,"), station.row, MIRVONCLE_ROW));
    line_as("W26 text outside its source", buf, mirvoncle_write_w26(buf, sizeof buf, LENT("A"), station.row, MIRVONCLE_ROW));
    line_as("W36 line", buf, mirvoncle_write_w36(buf, sizeof buf, LENT(""), socket.row, MIRVONCLE_ROW));
    line_as("W36 line into 8 bytes", buf, mirvoncle_write_w36(buf, 8, LENT(""), socket.row, MIRVONCLE_ROW));
    line_as("W36 line from 16 numbers", buf, mirvoncle_write_w36(buf, sizeof buf, LENT(""), socket.row, MIRVONCLE_ROW - 1));
    line_as("W36 binary event", buf, mirvoncle_write_w36(buf, sizeof buf, LENT("\xFF"), data.row, MIRVONCLE_ROW));
    socket.good.event.of.SocketConnected.socket_id = 256;
    line_as("W36 socket 256", buf, mirvoncle_write_w36(buf, sizeof buf, LENT(""), socket.row, MIRVONCLE_ROW));
    station.good.event.which = 26;
    line_as("W26 case 26", buf, mirvoncle_write_w26(buf, sizeof buf, LENT("AB"), station.row, MIRVONCLE_ROW));
}

static void packets_written(void)
{
    uint8_t buf[16] = {0};
    union mirvoncle_packet_row data = {
        .good.packet.id = MIRVONCLE_PACKET_DataCommand,
        .good.packet.of.DataCommand = {.channel = 3, .data = {.place = 0, .len = 1}},
    };
    union mirvoncle_packet_row request = {
        .good.packet.id = MIRVONCLE_PACKET_ATRequest,
        .good.packet.of.ATRequest = {.place = 0, .len = 2},
    };
    union mirvoncle_packet_row start = {.good.packet.id = MIRVONCLE_PACKET_StartEvent};

    frame_as("packet of data", buf, mirvoncle_write_packet(buf, sizeof buf, LENT("A"), data.row, MIRVONCLE_ROW));
    frame_as("packet of a request", buf, mirvoncle_write_packet(buf, sizeof buf, LENT("AT"), request.row, MIRVONCLE_ROW));
    frame_as("packet that is no command", buf, mirvoncle_write_packet(buf, sizeof buf, LENT(""), start.row, MIRVONCLE_ROW));
    start.good.packet.id = 0x72;
    frame_as("packet 72", buf, mirvoncle_write_packet(buf, sizeof buf, LENT(""), start.row, MIRVONCLE_ROW));
}

int main(void)
{
    printf("version %u\n", (unsigned)mirvoncle_version_2());
    numbers();
    rows_read();
    lines_written();
    packets_written();
    return 0;
}
