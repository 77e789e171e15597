/* libre's jitter buffer (jbuf) behind the same calls as the others: header read, payload allocated, copied in and out. It neither checks
 * storage nor asks for lost packets; a repair is put in as the packet it repairs. */

#include <stdbool.h>
#include <stdint.h>
#include <string.h>
#include <sys/types.h>

#define HAVE_INTTYPES_H
#include <re/re.h>

struct jbuf *peer_open(uint32_t waiting, uint32_t most)
{
	struct jbuf *buffer = NULL;
	return jbuf_alloc(&buffer, waiting, most) ? NULL : buffer;
}

int peer_put(struct jbuf *buffer, uint8_t *datagram, size_t length)
{
	struct mbuf bytes = {.buf = datagram, .size = length, .pos = 0, .end = length};
	struct rtp_header header;
	if (rtp_hdr_decode(&header, &bytes))
		return -1;
	const size_t size = mbuf_get_left(&bytes);
	uint8_t *frame = mem_alloc(sizeof(size_t) + size, NULL);
	if (!frame)
		return -1;
	memcpy(frame, &size, sizeof size);
	memcpy(frame + sizeof size, mbuf_buf(&bytes), size);
	const int refused = jbuf_put(buffer, &header, frame);
	mem_deref(frame);
	return refused;
}

/* The length of the payload, or -1 where none is due. */
int peer_get(struct jbuf *buffer, uint8_t *out)
{
	struct rtp_header header;
	void *frame = NULL;
	if (jbuf_get(buffer, &header, &frame) || !frame)
		return -1;
	size_t size;
	memcpy(&size, frame, sizeof size);
	memcpy(out, (uint8_t *)frame + sizeof size, size);
	mem_deref(frame);
	return (int)size;
}

void peer_close(struct jbuf *buffer)
{
	mem_deref(buffer);
}
