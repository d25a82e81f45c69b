/* librabbitmq's codecs of tables and of properties, behind pointers and lengths. What it reads goes into a pool that is recycled after each call, so
 * that no memory is taken from the system or given back within the time measured. */
#include <amqp.h>
#include <amqp_framing.h>

enum { SLOTS = 8 };

static amqp_pool_t pool, kept_pools[SLOTS], properties_pools[SLOTS];
static amqp_table_t kept[SLOTS];
static void *kept_properties[SLOTS];

static void begin(void) {
    static int begun;
    if (!begun) {
        init_amqp_pool(&pool, 131072);
        begun = 1;
    }
}

/* Octets read, or 0. */
size_t librabbitmq_read(const uint8_t *octets, size_t len) {
    amqp_table_t table;
    size_t at = 0;
    begin();
    int status = amqp_decode_table((amqp_bytes_t){len, (void *)octets}, &pool, &table, &at);
    recycle_amqp_pool(&pool);
    return status == 0 ? at : 0;
}

/* Reads a table and keeps it for librabbitmq_write. Its strings point into the octets, which must stay. */
size_t librabbitmq_keep(size_t slot, const uint8_t *octets, size_t len) {
    size_t at = 0;
    init_amqp_pool(&kept_pools[slot], 1 << 20);
    return amqp_decode_table((amqp_bytes_t){len, (void *)octets}, &kept_pools[slot], &kept[slot], &at) == 0 ? at : 0;
}

/* Octets written, or 0. */
size_t librabbitmq_write(size_t slot, uint8_t *out, size_t len) {
    size_t at = 0;
    return amqp_encode_table((amqp_bytes_t){len, out}, &kept[slot], &at) == 0 ? at : 0;
}

/* The flags of a content header's properties, or 0 if they are refused. The octets begin with the flags. */
uint32_t librabbitmq_properties(uint16_t class_id, const uint8_t *octets, size_t len) {
    void *decoded;
    begin();
    int status = amqp_decode_properties(class_id, &pool, (amqp_bytes_t){len, (void *)octets}, &decoded);
    uint32_t flags = status == 0 ? ((amqp_basic_properties_t *)decoded)->_flags : 0;
    recycle_amqp_pool(&pool);
    return flags;
}

/* Decodes properties and keeps them for librabbitmq_write_properties: 1, or 0 if they are refused. Their strings point into the octets. */
size_t librabbitmq_keep_properties(size_t slot, uint16_t class_id, const uint8_t *octets, size_t len) {
    init_amqp_pool(&properties_pools[slot], 1 << 16);
    amqp_bytes_t encoded = {len, (void *)octets};
    return amqp_decode_properties(class_id, &properties_pools[slot], encoded, &kept_properties[slot]) == 0;
}

/* Octets written, from the flags on, or 0. */
size_t librabbitmq_write_properties(size_t slot, uint16_t class_id, uint8_t *out, size_t len) {
    int written = amqp_encode_properties(class_id, kept_properties[slot], (amqp_bytes_t){len, out});
    return written < 0 ? 0 : (size_t)written;
}
