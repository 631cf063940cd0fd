/* A first program over libzk: the fields of one payload, a client's request to learn whether /a exists. */
#include <stdio.h>
#include <zk.h>

int main(void) {
    const uint8_t payload[] = {0, 0, 0, 1, 0, 0, 0, 3, 0, 0, 0, 2, '/', 'a', 1};
    struct zk_field fields[64];
    struct zk_read read = zk_read_request(ZK_PROFILE_34, payload, sizeof payload, fields, 64);
    printf("%s: %s, %u fields\n", zk_status_name(read.status), zk_operation_name(read.operation), (unsigned)read.count);
    for (uint32_t i = 0; i < read.count && i < 64; i++)
        printf("%s at %u+%u\n", zk_field_name(fields[i].name), (unsigned)fields[i].place, (unsigned)fields[i].length);
    return read.status == ZK_WELL ? 0 : 1;
}
