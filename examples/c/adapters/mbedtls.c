/* Signatures by Mbed TLS 2.28 or 3. */
#include "cose_adapter.h"
#include <mbedtls/bignum.h>
#include <mbedtls/ecdsa.h>
#include <mbedtls/ecp.h>

/* Writes the y of x that has the sign: a root of x^3 - 3x + b, which is that number to the power (p + 1) / 4, since p
 * leaves 3 when divided by 4 on the three curves (SEC 1 section 2.3.4). Where there is no root, what is written is no
 * point with x. */
static int find_y(const mbedtls_ecp_group *group, const struct cose_signature_input *input, uint8_t *bytes)
{
    mbedtls_mpi x, square, power, y;
    mbedtls_mpi_init(&x);
    mbedtls_mpi_init(&square);
    mbedtls_mpi_init(&power);
    mbedtls_mpi_init(&y);
    int is_found =
        mbedtls_mpi_read_binary(&x, input->x, input->x_length) == 0 && mbedtls_mpi_mul_mpi(&square, &x, &x) == 0 &&
        mbedtls_mpi_sub_int(&square, &square, 3) == 0 && mbedtls_mpi_mul_mpi(&square, &square, &x) == 0 &&
        mbedtls_mpi_add_mpi(&square, &square, &group->B) == 0 &&
        mbedtls_mpi_mod_mpi(&square, &square, &group->P) == 0 && mbedtls_mpi_add_int(&power, &group->P, 1) == 0 &&
        mbedtls_mpi_shift_r(&power, 2) == 0 && mbedtls_mpi_exp_mod(&y, &square, &power, &group->P, NULL) == 0;
    if (is_found && mbedtls_mpi_get_bit(&y, 0) != (input->y_sign == 2))
        is_found = mbedtls_mpi_sub_mpi(&y, &group->P, &y) == 0;
    is_found = is_found && mbedtls_mpi_write_binary(&y, bytes, input->x_length) == 0;
    mbedtls_mpi_free(&x);
    mbedtls_mpi_free(&square);
    mbedtls_mpi_free(&power);
    mbedtls_mpi_free(&y);
    return is_found;
}

/* Reads the key, which has to be a point of the curve. */
static int read_key(mbedtls_ecp_group *group, const struct cose_signature_input *input, mbedtls_ecp_point *key)
{
    static const mbedtls_ecp_group_id curves[] = {MBEDTLS_ECP_DP_SECP256R1, MBEDTLS_ECP_DP_SECP384R1,
                                                  MBEDTLS_ECP_DP_SECP521R1};
    uint8_t point[1 + sizeof input->x + sizeof input->y];
    size_t length = input->x_length;
    if (input->crv < 1 || input->crv > 3 || mbedtls_ecp_group_load(group, curves[input->crv - 1]) != 0)
        return 0;
    point[0] = 4;
    memcpy(point + 1, input->x, length);
    if (input->y_sign == 0)
        memcpy(point + 1 + length, input->y, input->y_length);
    else if (!find_y(group, input, point + 1 + length))
        return 0;
    return mbedtls_ecp_point_read_binary(group, key, point, 1 + 2 * length) == 0 &&
           mbedtls_ecp_check_pubkey(group, key) == 0;
}

int cose_signature_is_good(const struct cose_signature_input *input)
{
    size_t half = (size_t)(input->signature_length / 2);
    mbedtls_ecp_group group;
    mbedtls_ecp_point key;
    mbedtls_mpi r, s;
    mbedtls_ecp_group_init(&group);
    mbedtls_ecp_point_init(&key);
    mbedtls_mpi_init(&r);
    mbedtls_mpi_init(&s);
    int is_good = read_key(&group, input, &key) && mbedtls_mpi_read_binary(&r, input->signature, half) == 0 &&
                  mbedtls_mpi_read_binary(&s, input->signature + half, half) == 0 &&
                  mbedtls_ecdsa_verify(&group, input->digest, input->digest_length, &key, &r, &s) == 0;
    mbedtls_mpi_free(&s);
    mbedtls_mpi_free(&r);
    mbedtls_ecp_point_free(&key);
    mbedtls_ecp_group_free(&group);
    return is_good;
}
