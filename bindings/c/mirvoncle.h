/* EDM frames and AT events of u-blox radios, read and written. Each call is a proved function of crates/abi: its promise stands
 * there, in full. Link with libabi.a, which `./build abi` writes to target/staticlib; it is for x86-64 Linux.
 *
 * What a caller owes, since no call can see it:
 *   - a pointer leads to as many bytes as the length beside it says, all of one object, and is not NULL even where that is 0;
 *   - row leads to row_len numbers, not bytes, and is aligned as uint64_t is;
 *   - buf and row overlap nothing else that the call is lent;
 *   - nothing else writes to what is lent while the call runs, and nothing else reads what the call writes: buf, or the row of a read.
 * Nothing more is asked: whatever the bytes, the numbers and the lengths are, a call returns with the number that its promise fixes.
 * No call allocates, keeps a pointer or has a state, so that any number of threads may call at once.
 */
#ifndef MIRVONCLE_H
#define MIRVONCLE_H

#include <stddef.h>
#include <stdint.h>

#ifdef __cplusplus
extern "C" {
#endif

/* The version of the calls. The call below returns it and has it in its name, so that an archive of another version lacks that name.
 * With GCC and clang every file that includes this header refers to it, and does not link with such an archive; `retain` makes that
 * hold under --gc-sections too. With another compiler, call it once. */
#define MIRVONCLE_VERSION 2

uint32_t mirvoncle_version_2(void);

#ifdef __GNUC__
__attribute__((used))
#ifdef __has_attribute
#if __has_attribute(retain)
__attribute__((retain))
#endif
#endif
static uint32_t (*const mirvoncle_version_needed)(void) = mirvoncle_version_2;
#endif

/* The numbered refusals, by the names of document 01. */
enum mirvoncle_refusal {
    MIRVONCLE_PacketDecodeFramingInvalid = 1,
    MIRVONCLE_PacketDecodeTargetMemorySizeInvalid = 2,
    MIRVONCLE_PacketTypeDecodeLengthMismatch = 3,
    MIRVONCLE_PayloadTypeUnknown = 4,
    MIRVONCLE_ConnectEventUnsupported = 5,
    MIRVONCLE_ConnectEventDecodeError = 6,
    MIRVONCLE_DisconnectEventDecodeError = 7,
    MIRVONCLE_AtRequestEventDecodeError = 8,
    MIRVONCLE_PacketEncodeTypeUnknown = 9,
    MIRVONCLE_PacketEncodePayloadSizeInvalid = 10,
    MIRVONCLE_Utf8DecodeFailed = 11,
    MIRVONCLE_FramingDecodeFailed = 12,
    MIRVONCLE_TypeDecodeUnsupported = 13,
    MIRVONCLE_TypeDecodeParameterMissing = 14,
    MIRVONCLE_TypeDecodeParameterDataTypeInvalid = 15,
    MIRVONCLE_EventUnknown = 16,
    MIRVONCLE_FieldNotWritable = 17,
    MIRVONCLE_EventBufferTooSmall = 18
};

/* Why a field is of wrong form: it has no byte; a byte of it is not allowed, which is no digit and no plus in front of a digit; every byte
 * is allowed, and the number is too large for its width; the number is not in the field's list (protocol, W26 reason). */
enum mirvoncle_reason {
    MIRVONCLE_REASON_EMPTY = 1,
    MIRVONCLE_REASON_BYTE = 2,
    MIRVONCLE_REASON_LARGE = 3,
    MIRVONCLE_REASON_LIST = 4
};

/* What the steps of a walk give where no byte is left. */
#define MIRVONCLE_END 252

/* What a write gives for a row that is no event or packet: its first number is not 0, its second is no case or identifier, or a number
 * is too large for its field or not in the field's list. */
#define MIRVONCLE_NO_EVENT 253

/* What a call gives for a row of fewer than MIRVONCLE_ROW numbers. */
#define MIRVONCLE_ROW_TOO_SHORT 254

/* What the reads of binary events give for bytes that are no binary event at all. */
#define MIRVONCLE_NOT_BINARY 255

/* What a refused write adds to the refusal's number: that of a frame, and that of an event's line, which can be longer. Every length is
 * below it. */
#define MIRVONCLE_REFUSED 65536
#define MIRVONCLE_LINE_REFUSED ((size_t)1 << 63)

/* Reads: 0 where the bytes are accepted, else the refusal's number. */

/* One EDM frame, from AA to 55. */
uint8_t mirvoncle_frame(const uint8_t *s, size_t s_len);

/* The W26 event line, the W36 text event, the W36 binary event and the AT response that start at s. */
uint8_t mirvoncle_w26(const uint8_t *s, size_t s_len);
uint8_t mirvoncle_w36(const uint8_t *s, size_t s_len);
uint8_t mirvoncle_w36_binary(const uint8_t *s, size_t s_len);
uint8_t mirvoncle_response(const uint8_t *s, size_t s_len);

/* The same reads, which also say which field a technician has to look at. The lowest byte of what they return is what the call above returns;
 * refusals 14 and 15 carry the field too, counted from 1, and 15 also carries the reason. What is not carried is 0. */
uint32_t mirvoncle_frame_why(const uint8_t *s, size_t s_len);
uint32_t mirvoncle_w26_why(const uint8_t *s, size_t s_len);
uint32_t mirvoncle_w36_why(const uint8_t *s, size_t s_len);
uint32_t mirvoncle_w36_binary_why(const uint8_t *s, size_t s_len);

#define MIRVONCLE_NUMBER(why) ((uint8_t)((why) & 0xFF))
#define MIRVONCLE_FIELD(why) ((uint8_t)((why) >> 8 & 0xFF))
#define MIRVONCLE_REASON(why) ((uint8_t)((why) >> 16))

/* How many bytes stand before the first sequence that is not UTF-8; s_len where there is none. */
size_t mirvoncle_utf8_prefix(const uint8_t *s, size_t s_len);

/* Writes: the frame's length, 6 to 4099, or MIRVONCLE_REFUSED plus the refusal's number. The frame stands at the start of buf and
 * the bytes after it stay as they were; where the write is refused, all of them do. */

/* A data command: data, sent on a channel. */
size_t mirvoncle_write_data(uint8_t *buf, size_t buf_len, uint8_t channel, const uint8_t *data, size_t data_len);

/* An AT request: a text in UTF-8, after which a CR is written. */
size_t mirvoncle_write_request(uint8_t *buf, size_t buf_len, const uint8_t *text, size_t text_len);

/* The command to send the connect events again. */
size_t mirvoncle_write_resend(uint8_t *buf, size_t buf_len);

/* Rows: an answer with its fields, as numbers of 64 bits. A row is an array of MIRVONCLE_ROW numbers, or one of the unions below, which
 * name its numbers; lend a call the union's member `row`. The members of a struct stand in the row in their order: a number is one number
 * of the row, a text is two. (C++ leaves such unions to the compiler; GCC and clang read them as C does.) */
#define MIRVONCLE_ROW 17

/* A text, data or an address: its place in the bytes that were read, or in the source of a write, and its length. What a read gives lies
 * inside those bytes, and a text that it gives is UTF-8: both are theorems. */
struct mirvoncle_text {
    uint64_t place, len;
};

/* A refused read. The field and the reason are those of the `_why` calls; only a step sets `begins`, the place of the refused event. */
struct mirvoncle_refused {
    uint64_t number, field, reason, begins;
};

/* W26 events, each with its name on the line. */
enum mirvoncle_w26_case {
    MIRVONCLE_W26_PeerConnectedIP = 0,                    /* +UUDPC with type 2 or 3 */
    MIRVONCLE_W26_PeerDisconnected = 1,                   /* +UUDPD */
    MIRVONCLE_W26_WifiLinkConnected = 2,                  /* +UUWLE */
    MIRVONCLE_W26_WifiLinkDisconnected = 3,               /* +UUWLD */
    MIRVONCLE_W26_WifiAccessPointUp = 4,                  /* +UUWAPU */
    MIRVONCLE_W26_WifiAccessPointDown = 5,                /* +UUWAPD */
    MIRVONCLE_W26_WifiAccessPointStationConnected = 6,    /* +UUWAPSTAC */
    MIRVONCLE_W26_WifiAccessPointStationDisconnected = 7, /* +UUWAPSTAD */
    MIRVONCLE_W26_EthernetLinkUp = 8,                     /* +UUETHLU */
    MIRVONCLE_W26_EthernetLinkDown = 9,                   /* +UUETHLD */
    MIRVONCLE_W26_NetworkUp = 10,                         /* +UUNU */
    MIRVONCLE_W26_NetworkDown = 11,                       /* +UUND */
    MIRVONCLE_W26_NetworkError = 12,                      /* +UUNERR */
    MIRVONCLE_W26_DataAvailable = 13,                     /* +UUDATA */
    MIRVONCLE_W26_BondEvent = 14,                         /* +UUBTB */
    MIRVONCLE_W26_UserConfirmation = 15,                  /* +UUBTUC */
    MIRVONCLE_W26_UserPasskeyDisplay = 16,                /* +UUBTUPD */
    MIRVONCLE_W26_UserPasskeyEntry = 17,                  /* +UUBTUPE */
    MIRVONCLE_W26_ACLConnected = 18,                      /* +UUBTACLC */
    MIRVONCLE_W26_ACLDisconnected = 19,                   /* +UUBTACLD */
    MIRVONCLE_W26_GATTRequestToRead = 20,                 /* +UUBTGRR */
    MIRVONCLE_W26_GATTRequestToWrite = 21,                /* +UUBTGRW */
    MIRVONCLE_W26_GATTIndicationConfirmation = 22,        /* +UUBTGIC */
    MIRVONCLE_W26_GATTNotification = 23,                  /* +UUBTGN */
    MIRVONCLE_W26_GATTIndication = 24,                    /* +UUBTGI */
    MIRVONCLE_W26_PeerConnectedBluetooth = 25             /* +UUDPC with type 1 */
};

/* A W26 event: its case, and the fields of that case alone; a case without fields has no member.
 *   type: 2 IPv4, 3 IPv6; of PeerConnectedBluetooth always 1
 *   protocol: 1 TCP, 2 UDP, 6 MQTT
 *   reason: 0 unknown, 1 remote close, 2 out of range, 3 roaming, 4 security problems, 5 network disabled
 *   profile, status, type_, options: 8 bits
 *   passkey, and the value of UserConfirmation: 32 bits
 *   every other number: 16 bits
 */
struct mirvoncle_w26_event {
    uint64_t which; /* enum mirvoncle_w26_case */
    union {
        struct {
            uint64_t peer_handle, type, protocol;
            struct mirvoncle_text local_address;
            uint64_t local_port;
            struct mirvoncle_text remote_address;
            uint64_t remote_port;
        } PeerConnectedIP;
        struct { uint64_t peer_handle; } PeerDisconnected;
        struct { uint64_t conn_id; struct mirvoncle_text bssid; uint64_t channel; } WifiLinkConnected;
        struct { uint64_t conn_id, reason; } WifiLinkDisconnected;
        struct { uint64_t id; } WifiAccessPointUp;
        struct { uint64_t id; } WifiAccessPointDown;
        struct { uint64_t id; struct mirvoncle_text mac_addr; } WifiAccessPointStationConnected;
        struct { uint64_t id; } WifiAccessPointStationDisconnected;
        struct { uint64_t interface_id; } NetworkUp;
        struct { uint64_t interface_id; } NetworkDown;
        struct { uint64_t interface_id, code; } NetworkError;
        struct { uint64_t peer, length; } DataAvailable;
        struct { struct mirvoncle_text bd_addr; uint64_t status; } BondEvent;
        struct { struct mirvoncle_text bd_addr; uint64_t value; } UserConfirmation;
        struct { struct mirvoncle_text bd_addr; uint64_t passkey; } UserPasskeyDisplay;
        struct { struct mirvoncle_text bd_addr; } UserPasskeyEntry;
        struct { uint64_t conn_handle, type_; struct mirvoncle_text bd_addr; } ACLConnected;
        struct { uint64_t conn_handle; } ACLDisconnected;
        struct { uint64_t conn_handle, char_handle; } GATTRequestToRead;
        struct { uint64_t conn_handle, char_handle; struct mirvoncle_text value; uint64_t options; } GATTRequestToWrite;
        struct { uint64_t conn_handle, char_handle; } GATTIndicationConfirmation;
        struct { uint64_t conn_handle, value_handle; struct mirvoncle_text hex_data; } GATTNotification;
        struct { uint64_t conn_handle, value_handle; struct mirvoncle_text hex_data; } GATTIndication;
        struct { uint64_t peer_handle, type, profile; struct mirvoncle_text address; uint64_t frame_size; } PeerConnectedBluetooth;
    } of;
};

/* W36 events, each with its name on the line. The last two are the binary ones. */
enum mirvoncle_w36_case {
    MIRVONCLE_W36_SocketConnected = 0,                     /* +UESOC */
    MIRVONCLE_W36_SocketClosed = 1,                        /* +UESOCL */
    MIRVONCLE_W36_SocketDataAvailable = 2,                 /* +UESODA */
    MIRVONCLE_W36_WifiLinkUp = 3,                          /* +UEWLU */
    MIRVONCLE_W36_WifiLinkDown = 4,                        /* +UEWLD */
    MIRVONCLE_W36_WifiAccessPointStationAssociated = 5,    /* +UEWAPSA */
    MIRVONCLE_W36_WifiAccessPointStationDisassociated = 6, /* +UEWAPSDA */
    MIRVONCLE_W36_WifiAccessPointUp = 7,                   /* +UEWAPU */
    MIRVONCLE_W36_WifiAccessPointDown = 8,                 /* +UEWAPD */
    MIRVONCLE_W36_StationNetworkUp = 9,                    /* +UEWSNU */
    MIRVONCLE_W36_StationNetworkDown = 10,                 /* +UEWSND */
    MIRVONCLE_W36_AccessPointNetworkUp = 11,               /* +UEWAPNU */
    MIRVONCLE_W36_AccessPointNetworkDown = 12,             /* +UEWAPND */
    MIRVONCLE_W36_SocketDataBinary = 13,                   /* +UESODB */
    MIRVONCLE_W36_SocketDataBinaryFrom = 14                /* +UESODBF */
};

/* A W36 event, as a W26 one is given. A socket_id has 8 bits, every other number 16. Data are bytes, and need not be UTF-8. */
struct mirvoncle_w36_event {
    uint64_t which; /* enum mirvoncle_w36_case */
    union {
        struct { uint64_t socket_id; } SocketConnected;
        struct { uint64_t socket_id; } SocketClosed;
        struct { uint64_t socket_id, length; } SocketDataAvailable;
        struct { uint64_t wlan_handle; struct mirvoncle_text bssid; uint64_t channel; } WifiLinkUp;
        struct { uint64_t wlan_handle, reason; } WifiLinkDown;
        struct { struct mirvoncle_text mac_addr; } WifiAccessPointStationAssociated;
        struct { struct mirvoncle_text mac_addr; } WifiAccessPointStationDisassociated;
        struct { uint64_t socket_id; struct mirvoncle_text data; } SocketDataBinary;
        struct {
            uint64_t socket_id;
            struct mirvoncle_text remote_ip;
            uint64_t remote_port;
            struct mirvoncle_text data;
        } SocketDataBinaryFrom;
    } of;
};

enum mirvoncle_response_case {
    MIRVONCLE_RESPONSE_Ok = 0,
    MIRVONCLE_RESPONSE_Error = 1,
    MIRVONCLE_RESPONSE_Other = 2
};

/* An AT response. Error has no text: what stands there is not set. */
struct mirvoncle_response {
    uint64_t which; /* enum mirvoncle_response_case */
    struct mirvoncle_text text;
};

/* Packets, by the identifier in the frame. A data command is written only: a frame with it is read as a data event. */
enum mirvoncle_packet_id {
    MIRVONCLE_PACKET_ConnectEvent = 0x11,
    MIRVONCLE_PACKET_DisconnectEvent = 0x21,
    MIRVONCLE_PACKET_DataEvent = 0x31,
    MIRVONCLE_PACKET_DataCommand = 0x36,
    MIRVONCLE_PACKET_ATEvent = 0x41,
    MIRVONCLE_PACKET_ATRequest = 0x44,
    MIRVONCLE_PACKET_ATResponse = 0x45,
    MIRVONCLE_PACKET_ResendConnectEvents = 0x56,
    MIRVONCLE_PACKET_StartEvent = 0x71
};

/* A packet: its identifier, and the contents of that packet alone. An address has 4 bytes, a channel and a protocol are one byte each. The
 * text of a request that was read ends with its CR; a write adds a CR to the text. */
struct mirvoncle_packet {
    uint64_t id; /* enum mirvoncle_packet_id */
    union {
        struct {
            uint64_t channel, protocol;
            struct mirvoncle_text remote_addr;
            uint64_t remote_port;
            struct mirvoncle_text local_addr;
            uint64_t local_port;
        } ConnectEvent;
        struct { uint64_t channel; } DisconnectEvent;
        struct { uint64_t channel; struct mirvoncle_text data; } DataEvent;
        struct { uint64_t channel; struct mirvoncle_text data; } DataCommand;
        struct mirvoncle_w26_event ATEvent;
        struct mirvoncle_text ATRequest;
        struct mirvoncle_response ATResponse;
    } of;
};

/* The row of each kind of answer: `good` where the call returned 0, `refused` where it returned a refusal's number. To write, set `zero`
 * to 0 and the rest of `good`; what stands after the fields is not looked at. */
union mirvoncle_w26_row {
    uint64_t row[MIRVONCLE_ROW];
    struct mirvoncle_refused refused;
    struct { uint64_t zero; struct mirvoncle_w26_event event; } good;
};

union mirvoncle_w36_row {
    uint64_t row[MIRVONCLE_ROW];
    struct mirvoncle_refused refused;
    struct { uint64_t zero; struct mirvoncle_w36_event event; } good;
};

union mirvoncle_response_row {
    uint64_t row[MIRVONCLE_ROW];
    struct mirvoncle_refused refused;
    struct { uint64_t zero; struct mirvoncle_response response; } good;
};

union mirvoncle_packet_row {
    uint64_t row[MIRVONCLE_ROW];
    struct mirvoncle_refused refused;
    struct { uint64_t zero; struct mirvoncle_packet packet; } good;
};

/* The place just past a W36 event that was read: there the next one begins. It stands in the row after the fields of the case; that of
 * a W26 event does too, and is s_len. Where the row holds no event, this returns 0, which no event ends at. */
static inline size_t mirvoncle_w36_past(const union mirvoncle_w36_row *r)
{
    static const uint8_t after_fields[] = {3, 3, 4, 6, 4, 4, 4, 2, 2, 2, 2, 2, 2, 5, 8}; /* by case */
    int is_event = r->row[0] == 0 && r->row[1] < sizeof after_fields;

    return is_event ? (size_t)r->row[after_fields[r->row[1]]] : 0;
}

/* Reads into a row: they answer as the plain reads do, and the first number of the row is the number that they return. Where row_len is
 * less than MIRVONCLE_ROW, they return MIRVONCLE_ROW_TOO_SHORT and leave the row as it was. Numbers of the row that an answer has no use
 * for stay as they were. */
uint8_t mirvoncle_read_frame(const uint8_t *s, size_t s_len, uint64_t *row, size_t row_len);
uint8_t mirvoncle_read_w26(const uint8_t *s, size_t s_len, uint64_t *row, size_t row_len);
uint8_t mirvoncle_read_w36(const uint8_t *s, size_t s_len, uint64_t *row, size_t row_len);
uint8_t mirvoncle_read_w36_binary(const uint8_t *s, size_t s_len, uint64_t *row, size_t row_len);
uint8_t mirvoncle_read_response(const uint8_t *s, size_t s_len, uint64_t *row, size_t row_len);

/* One step of a walk over the W36 events of a buffer: the event at the place `at`, binary or text, or MIRVONCLE_END. Every place counts
 * from s. Begin at 0, and go on at mirvoncle_w36_past. */
uint8_t mirvoncle_read_w36_step(const uint8_t *s, size_t s_len, size_t at, uint64_t *row, size_t row_len);

/* Writes from a row, whose texts and data are places in src. The line or frame stands at the start of buf and the bytes after it stay as
 * they were; where the write is refused, all of them do. */

/* The line of an event: its length, or MIRVONCLE_LINE_REFUSED plus 17, 18, MIRVONCLE_NO_EVENT or MIRVONCLE_ROW_TOO_SHORT. */
size_t mirvoncle_write_w26(uint8_t *buf, size_t buf_len, const uint8_t *src, size_t src_len, const uint64_t *row, size_t row_len);
size_t mirvoncle_write_w36(uint8_t *buf, size_t buf_len, const uint8_t *src, size_t src_len, const uint64_t *row, size_t row_len);

/* The frame of a data command, an AT request or a resend: its length, or MIRVONCLE_REFUSED plus 2, 8, 9, 10, MIRVONCLE_NO_EVENT or
 * MIRVONCLE_ROW_TOO_SHORT. Any other packet is 9, whatever follows its identifier. */
size_t mirvoncle_write_packet(uint8_t *buf, size_t buf_len, const uint8_t *src, size_t src_len, const uint64_t *row, size_t row_len);

#ifdef __cplusplus
}
#endif

#endif
