/* SCCP over M3UA for bridge/network (transport = "m3ua"): libosmo-sigtran does both, as it does for osmo-bsc; here primitives
 * become lines, and lines primitives.
 *
 *     m3ua ADDRESS PORT OWN PEER       point codes as numbers
 *
 * Standard input, a line each, with octets in hexadecimal ('-' where there are none):
 *     unitdata HEX     connect ID HEX     accept ID     data ID HEX     release ID
 * Standard output:
 *     up               once messages can be sent
 *     away     back    the centre can't be reached, or can again (N-PCSTATE, N-STATE)
 *     unitdata HEX     asked ID HEX       confirmed ID HEX     data ID HEX     ended ID CAUSE
 *
 * On a lost link no primitive comes, so the state is looked at. A process is a link: it ends with it.
 */
#include <errno.h>
#include <stdbool.h>
#include <stdint.h>
#include <stdio.h>
#include <stdlib.h>
#include <string.h>
#include <unistd.h>

#include <osmocom/core/application.h>
#include <osmocom/core/logging.h>
#include <osmocom/core/select.h>
#include <osmocom/core/timer.h>
#include <osmocom/core/utils.h>
#include <osmocom/sigtran/osmo_ss7.h>
#include <osmocom/sigtran/sccp_helpers.h>
#include <osmocom/sigtran/sccp_sap.h>

#define NAME "gofnild"
/* Cause of a release: end user originated (ITU-T Q.713 3.11). */
enum { END_USER_ORIGINATED = 0, LONGEST_MESSAGE = 512, LONGEST_LINE = 4096, LOOKED_AT_MS = 100 };

static struct osmo_sccp_user *user;
static struct osmo_sccp_addr own, peer;
static struct osmo_ss7_asp *asp;
static struct osmo_timer_list look_timer;
static bool is_up;

/* Ends, with the link. */
static void end(const char *why)
{
	fprintf(stderr, "%s\n", why);
	exit(1);
}

/* Prints a line with a message. */
static void tell(const char *what, const uint32_t *id, struct msgb *message)
{
	unsigned int length = msgb_l2(message) ? msgb_l2len(message) : 0;

	printf("%s ", what);
	if (id)
		printf("%u ", *id);
	printf("%s\n", length ? osmo_hexdump_nospc(msgb_l2(message), length) : "-");
	fflush(stdout);
}

/* Tells whether the centre can be reached. */
static void tell_state(bool is_there)
{
	printf("%s\n", is_there ? "back" : "away");
	fflush(stdout);
}

/* Takes what is said of a point code. */
static void heard_code(const struct osmo_scu_pcstate_param *state)
{
	if (state->affected_pc == peer.pc && state->sp_status != OSMO_SCCP_SP_S_CONGESTED)
		tell_state(state->sp_status == OSMO_SCCP_SP_S_ACCESSIBLE);
}

/* Takes what is said of a subsystem. */
static void heard_subsystem(const struct osmo_scu_state_param *state)
{
	if (state->affected_pc == peer.pc && state->affected_ssn == OSMO_SCCP_SSN_BSSAP)
		tell_state(state->user_in_service);
}

/* Takes a primitive of SCCP. */
static int heard(struct osmo_prim_hdr *header, void *context)
{
	struct osmo_scu_prim *primitive = (struct osmo_scu_prim *)header;

	(void)context;
	switch (OSMO_PRIM_HDR(header)) {
	case OSMO_PRIM(OSMO_SCU_PRIM_N_UNITDATA, PRIM_OP_INDICATION):
		tell("unitdata", NULL, header->msg);
		break;
	case OSMO_PRIM(OSMO_SCU_PRIM_N_CONNECT, PRIM_OP_INDICATION):
		tell("asked", &primitive->u.connect.conn_id, header->msg);
		break;
	case OSMO_PRIM(OSMO_SCU_PRIM_N_CONNECT, PRIM_OP_CONFIRM):
		tell("confirmed", &primitive->u.connect.conn_id, header->msg);
		break;
	case OSMO_PRIM(OSMO_SCU_PRIM_N_DATA, PRIM_OP_INDICATION):
		tell("data", &primitive->u.data.conn_id, header->msg);
		break;
	case OSMO_PRIM(OSMO_SCU_PRIM_N_DISCONNECT, PRIM_OP_INDICATION):
		if (msgb_l2(header->msg) && msgb_l2len(header->msg))
			tell("data", &primitive->u.disconnect.conn_id, header->msg);
		printf("ended %u %u\n", primitive->u.disconnect.conn_id, primitive->u.disconnect.cause);
		fflush(stdout);
		break;
	case OSMO_PRIM(OSMO_SCU_PRIM_N_PCSTATE, PRIM_OP_INDICATION):
		heard_code(&primitive->u.pcstate);
		break;
	case OSMO_PRIM(OSMO_SCU_PRIM_N_STATE, PRIM_OP_INDICATION):
		heard_subsystem(&primitive->u.state);
		break;
	default:
		break;
	}
	msgb_free(header->msg);
	return 0;
}

/* The octets that a word writes; their number, or -1 where it writes none. */
static int octets_of(const char *word, uint8_t *octets)
{
	if (!word)
		return -1;
	return strcmp(word, "-") ? osmo_hexparse(word, octets, LONGEST_MESSAGE) : 0;
}

/* Takes a line. */
static void take(char *line)
{
	uint8_t octets[LONGEST_MESSAGE];
	const char *what = strtok(line, " ");
	const char *first = strtok(NULL, " "), *second = strtok(NULL, " ");
	uint32_t id = first ? strtoul(first, NULL, 10) : 0;
	int length;

	if (!what || !first)
		return;
	if (!strcmp(what, "accept"))
		osmo_sccp_tx_conn_resp(user, id, &own, NULL, 0);
	else if (!strcmp(what, "release"))
		osmo_sccp_tx_disconn(user, id, NULL, END_USER_ORIGINATED);
	else if (!strcmp(what, "unitdata") && (length = octets_of(first, octets)) >= 0)
		osmo_sccp_tx_unitdata(user, &own, &peer, octets, length);
	else if (!strcmp(what, "connect") && (length = octets_of(second, octets)) >= 0)
		osmo_sccp_tx_conn_req(user, id, &own, &peer, octets, length);
	else if (!strcmp(what, "data") && (length = octets_of(second, octets)) >= 0)
		osmo_sccp_tx_data(user, id, octets, length);
	else
		fprintf(stderr, "no line that is known: %s\n", what);
}

/* Takes octets of standard input, line by line; its end ends this. */
static int readable(struct osmo_fd *file, unsigned int what)
{
	static char line[LONGEST_LINE];
	static size_t at;
	char piece[LONGEST_LINE];
	ssize_t came = read(file->fd, piece, sizeof(piece));

	(void)what;
	if (came <= 0)
		exit(0);
	for (ssize_t place = 0; place < came; place++) {
		if (piece[place] == '\n') {
			line[at] = '\0';
			take(line);
			at = 0;
		} else if (at + 1 < sizeof(line)) {
			line[at++] = piece[place];
		}
	}
	return 0;
}

/* Looks whether the link is there. */
static void look(void *context)
{
	bool is_active = osmo_ss7_asp_active(asp);

	(void)context;
	if (is_active && !is_up) {
		is_up = true;
		printf("up\n");
		fflush(stdout);
	} else if (!is_active && is_up) {
		end("the link is lost");
	}
	osmo_timer_schedule(&look_timer, 0, LOOKED_AT_MS * 1000);
}

/* Opens the link. */
static void open_link(const char *address, int port, uint32_t own_code, uint32_t peer_code)
{
	const char *any = strchr(address, ':') ? "::" : "0.0.0.0";
	struct osmo_sccp_instance *sccp;

	sccp = osmo_sccp_simple_client(NULL, NAME, own_code, OSMO_SS7_ASP_PROT_M3UA, 0, any, port, address);
	if (!sccp)
		end("the link can't be opened");
	user = osmo_sccp_user_bind(sccp, NAME, heard, OSMO_SCCP_SSN_BSSAP);
	asp = osmo_ss7_asp_find_by_name(osmo_sccp_get_ss7(sccp), "asp-clnt-" NAME);
	if (!user || !asp)
		end("SCCP can't be used");
	osmo_sccp_make_addr_pc_ssn(&own, own_code, OSMO_SCCP_SSN_BSSAP);
	osmo_sccp_make_addr_pc_ssn(&peer, peer_code, OSMO_SCCP_SSN_BSSAP);
}

int main(int count, char **words)
{
	static const struct log_info categories = { 0 };
	static struct osmo_fd input;

	if (count != 5) {
		fprintf(stderr, "m3ua ADDRESS PORT OWN PEER\n");
		return 2;
	}
	osmo_init_logging2(NULL, &categories);
	log_set_log_level(osmo_stderr_target, LOGL_ERROR);
	log_set_use_color(osmo_stderr_target, 0);
	osmo_ss7_init();
	open_link(words[1], atoi(words[2]), strtoul(words[3], NULL, 10), strtoul(words[4], NULL, 10));
	osmo_fd_setup(&input, STDIN_FILENO, OSMO_FD_READ, readable, NULL, 0);
	if (osmo_fd_register(&input) < 0)
		end("standard input can't be read");
	osmo_timer_setup(&look_timer, look, NULL);
	look(NULL);
	while (true)
		osmo_select_main(0);
}
