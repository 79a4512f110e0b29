/*
 * Calls of the shared object that are wrong, each of which stands in the place of the right one where its name is defined
 * (wrong_library.py). The right one is called right_hk_..
 */
#include <stddef.h>
#include <stdint.h>

#ifdef MUTE
/* Has no messages. */
size_t right_hk_fetch(void *world, uint8_t *out, size_t n);
size_t hk_fetch(void *world, uint8_t *out, size_t n)
{
	return right_hk_fetch(world, out, n) * 0;
}
#endif

#ifdef NODS
/* Answers each write that it was done. */
uint32_t right_hk_write_n(void *world, const uint8_t *id, size_t id_n, const uint8_t *message, size_t n);
uint32_t hk_write_n(void *world, const uint8_t *id, size_t id_n, const uint8_t *message, size_t n)
{
	return right_hk_write_n(world, id, id_n, message, n) * 0;
}
#endif

#ifdef MUMBLES
/* Shows a message without its last byte. */
uint32_t right_hk_show(const uint8_t *message, size_t message_n, uint8_t *out, size_t n, size_t *size);
uint32_t hk_show(const uint8_t *message, size_t message_n, uint8_t *out, size_t n, size_t *size)
{
	return right_hk_show(message, message_n - (message_n > 0), out, n, size);
}
#endif

#ifdef TALKS
/* Is no call of the library. */
int talks(void)
{
	return 1;
}
#endif

typedef int wrong_object;
