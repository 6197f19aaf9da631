/* Speech of 8 kHz in 16 bits, so many frames of 20 ms: encodes and decodes each; the reply is the packets and what came back. */
#include "guest.h"
#include <speex/speex.h>
#include <string.h>

enum { FRAME = 160, BYTES = 2 * FRAME };

GUEST(operation)
{
    size_t length;
    uint8_t *in = guest_input(&length);
    void *encoder = speex_encoder_init(&speex_nb_mode), *decoder = speex_decoder_init(&speex_nb_mode);
    SpeexBits bits;
    int frames = 0;
    speex_bits_init(&bits);
    for (size_t i = 0; i + BYTES <= length && frames < operation; i += BYTES, frames++) {
        short speech[FRAME];
        char packet[400];
        memcpy(speech, in + i, BYTES);
        speex_bits_reset(&bits);
        speex_encode_int(encoder, speech, &bits);
        int n = speex_bits_write(&bits, packet, sizeof packet);
        guest_put(packet, (size_t)n);
        speex_bits_read_from(&bits, packet, n);
        speex_decode_int(decoder, &bits, speech);
        guest_put(speech, BYTES);
    }
    return guest_end(frames);
}
