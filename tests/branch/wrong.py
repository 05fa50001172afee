"""Wrong programs, each with what has to find it: file, text, text in its place, build, and case; or the demo's test."""

PLAIN, CHECKED, INTERRUPTED = "branch-plain", "branch-checked", "branch-interrupted"
DEMO = "demo"

# Where the endpoint of stored keys and of a removed association is read.
ENDPOINT = "case ANSWER_REMOVED:\n        answer->taken = number16(at + 1);\n        answer->endpoint = number32(at + 3);"

TUNNEL = [
    ("tunnel_side.c", "tunnel_drop(tunnel, answer.taken);", "tunnel_drop(tunnel, tunnel->in_n);",
     PLAIN, "messages_in_one_write"),
    ("tunnel_side.c", "if (answer.kind == ANSWER_MORE_NEEDED)\n            return 0;",
     "if (answer.kind == ANSWER_MORE_NEEDED) {\n            tunnel_drop(tunnel, tunnel->in_n);\n            return 0;\n        }",
     PLAIN, "messages_cut_into_single_octets"),
    ("tunnel_side.c", "while (tunnel->in_n > 0) {", "if (tunnel->in_n > 0) {",
     PLAIN, "messages_in_one_write"),
    ("tunnel_side.c", "booths_by_endpoint(&branch->booths, answer->endpoint)", "booths_most_idle(&branch->booths)",
     PLAIN, "each_booth_its_own"),
    ("tunnel_side.c", "return stored(branch, booth);", "return stored(branch, booths_most_idle(&branch->booths));",
     PLAIN, "keys_twice"),
    ("tunnel_side.c", "removed(booth);", "removed(booths_most_idle(&branch->booths));",
     PLAIN, "messages_in_one_write"),
    ("relay.c", ENDPOINT, ENDPOINT.replace("number32(at + 3)", "number16(at + 3) | (uint32_t)number16(at + 5) << 16"),
     PLAIN, "keys_twice"),
    ("relay.c", ENDPOINT, ENDPOINT.replace("number32(at + 3)", "at[6]"),
     PLAIN, "endpoints_above_255"),
    ("tunnel_side.c", "booths_remove(booth);", "(void)booth;",
     PLAIN, "ended_by_the_key_distributor"),
    ("tunnel_side.c", "answer->number == SHAWM_OVERSIZE ||", "answer->number == SHAWM_UNLISTED_TYPE ||",
     PLAIN, "messages_in_one_write"),
    ("tunnel_side.c", "answer->number == SHAWM_OVERSIZE ||", "",
     PLAIN, "oversize"),
    ("tunnel_side.c", "branch_ended(branch, why);", "say(\"%s\", why);\n    (void)branch;",
     PLAIN, "unsupported_version"),
    ("tunnel.c", "tunnel->out_n -= (size_t)put;", "tunnel->out_n = 0;",
     INTERRUPTED, "keys_twice"),
    ("tunnel.c", "if (TUNNEL_OUT - tunnel->out_n < n + spare)\n        return -1;",
     "(void)spare;\n    if (TUNNEL_OUT - tunnel->out_n < n)\n        n = TUNNEL_OUT - tunnel->out_n;",
     PLAIN, "who_does_not_read"),
    ("booth_side.c", "answer.n, TUNNEL_SPARE)", "answer.n, 0)",
     PLAIN, "who_does_not_read"),
    ("main.c", "return got == 1 && branch_packet(&branch, &packet) != 0 ? RELAY_GONE : GO_ON;",
     "for (; got == 1; got = udp_receive(branch.udp, &packet))\n        if (branch_packet(&branch, &packet) != 0)\n"
     "            return RELAY_GONE;\n    return GO_ON;",
     PLAIN, "burst"),
    ("lifetime.c", "unsigned count = booths_clear(&branch->booths);", "unsigned count = 1;",
     PLAIN, "unsupported_version"),
    ("lifetime.c", "branch->tunnel.state == TUNNEL_CONNECTED && relay_end(&branch->relay, &answer) != 0",
     "branch->tunnel.state == TUNNEL_CONNECTED && (memset(&answer, 0, sizeof answer), 0)",
     PLAIN, "closed_by_the_key_distributor"),
    ("main.c", "events & (POLLIN | POLLHUP | POLLERR)", "events & POLLHUP",
     PLAIN, "closed_by_the_key_distributor"),
    ("lifetime.c", "branch->moment = now() + branch->retry;", "branch->moment = INT64_MAX;",
     PLAIN, "reset_by_the_key_distributor"),
    ("main.c", "if (write_whole(branch.tunnel.fd,", "if (branch.udp < 0 && write_whole(branch.tunnel.fd,",
     PLAIN, "told_to_end"),
]

KEYS = [
    ("tunnel_side.c", "wipe(&record, sizeof record);", "", PLAIN, "no_key_stays"),
    ("tunnel.c", "wipe(tunnel->in + tunnel->in_n, n);", "", PLAIN, "no_key_stays"),
    ("relay.c", "wipe(relay->frame, n);", "", PLAIN, "no_key_stays"),
    ("relay.c", "wipe(relay->frame, sizeof relay->frame);", "", PLAIN, "no_key_stays"),
    ("control/compare.c", "== 0 ? \"equal\" : \"changed\"", "< 256 ? \"equal\" : \"changed\"",
     PLAIN, "every_field_is_compared"),
]

SYSTEM_CALLS = [
    ("tunnel.c", "errno == EINTR || errno == EAGAIN || errno == EWOULDBLOCK ? 0 : -1", "errno == EINTR ? 0 : -1",
     INTERRUPTED, "keys_twice"),
    ("main.c", "errno != EINTR && errno != EAGAIN", "errno != EAGAIN",
     INTERRUPTED, "keys_twice"),
    ("descriptor.c", "octets += done;\n        n -= (size_t)done;\n    }\n    return 0;\n}\n\nint read_whole",
     "n = 0;\n    }\n    return 0;\n}\n\nint read_whole",
     INTERRUPTED, "keys_twice"),
    ("identifier.c", "have += (size_t)got;", "have = SHAWM_IDENTIFIER_OCTETS;",
     INTERRUPTED, "identifiers_are_version_4"),
    ("udp.c", "while (sent < 0 && errno == EINTR);", "while (0);",
     INTERRUPTED, "booth_that_is_gone"),
    ("tunnel.c", "errno == EINPROGRESS || errno == EINTR)", "errno == EINPROGRESS)",
     INTERRUPTED, "nobody_listens"),
    ("signals.c", "handle(SIGPIPE, SIG_IGN) == 0 &&", "",
     PLAIN, "relay_stops_reading"),
    ("child.c", "sigaddset(&usual, SIGPIPE);", "",
     PLAIN, "relay_gets_what_it_needs"),
    ("descriptor.c", "return fcntl(fd, F_SETFD, FD_CLOEXEC) < 0 ? -1 : 0;", "return fd < 0 ? -1 : 0;",
     PLAIN, "relay_gets_what_it_needs"),
    ("main.c", "while (fd >= 0 && fd <= STDERR_FILENO);", "while (0);",
     PLAIN, "without_standard_descriptors"),
]

BOOTHS = [
    ("address.c", "return a->sin_port == b->sin_port &&", "return",
     PLAIN, "each_booth_its_own"),
    ("booths.c", "++booths->last", "booths->last",
     PLAIN, "each_booth_its_own"),
    ("identifier.c", "id[6] = (uint8_t)(0x40 | (id[6] & 0x0F));", "",
     PLAIN, "identifiers_are_version_4"),
    ("booth_side.c", "tag == SHAWM_TAG_FULL ?", "tag != SHAWM_TAG_FULL ?",
     PLAIN, "tags"),
    ("booth_side.c", "if (packet->cut) {", "if (packet->n == 0) {",
     PLAIN, "lengths"),
    ("relay.c", "if (n > SHAWM_DTLS_LIMIT) {", "if (n > 4096) {",
     PLAIN, "lengths"),
    ("booth_side.c", "booths_remove(booth);\n        return 0;\n    }\n    identifier_text",
     "*opened = booth;\n        return 0;\n    }\n    identifier_text",
     PLAIN, "without_a_tunnel"),
    ("booths.h", "enum { BOOTHS = 33 };", "enum { BOOTHS = 32 };",
     PLAIN, "full"),
    ("lifetime.c", "booth->heard + branch->idle <= now()", "booth->heard + branch->idle / 4 <= now()",
     PLAIN, "silence_ends_an_association"),
    ("lifetime.c", "if (close_silent(branch) != 0)\n        return -1;", "(void)close_silent;",
     PLAIN, "silence_ends_an_association"),
    ("lifetime.c", "return booth == NULL ? shown : earlier(shown, booth->heard + branch->idle);",
     "return booth == NULL ? shown : earlier(shown, INT64_MAX);",
     PLAIN, "ended_while_nothing_comes"),
    ("booth_side.c", "if (booth == NULL)\n        return from_unknown",
     "if (booth != NULL)\n        booth->heard = now();\n    if (booth == NULL)\n        return from_unknown",
     PLAIN, "rubbish_is_silence"),
]

# Where a packet is sorted, where DTLS and media of a booth with an association are told from the rest, where DTLS of an
# unknown address is, and what is dropped.
SORTED = "uint32_t kind = shawm_sort(packet->octets, packet->n);"
KNOWN_DTLS, KNOWN_MEDIA = "if (kind == SHAWM_KIND_DTLS)\n", "if (kind == SHAWM_KIND_RTP)\n"
UNKNOWN_DTLS = "if (kind != SHAWM_KIND_DTLS) {"
DROPPED = "if ((more = log_limited(&branch->dropped[kind])) != NULL)"
UNLIMITED = "if ((more = branch == NULL ? NULL : \"\") != NULL)"
BOUND = "if (kind >= BRANCH_KINDS || reasons[kind] == NULL)"
KNOWN_DROP, UNKNOWN_DROP = "drop(branch, kind, booth->listed, packet);", "drop(branch, kind, listed, packet);"
REFUSED = "if (answer.kind == ANSWER_REFUSED) {\n        refused(booth_name(booth), \"packet\""


def also(kind, text):
    """A condition on the kind that holds for another one too."""
    return text.replace("(kind", "(kind == SHAWM_KIND_%s || kind" % kind)


KINDS = [
    ("booth_side.c", KNOWN_DTLS, also("OTHER", KNOWN_DTLS), PLAIN, "kinds"),
    ("booth_side.c", KNOWN_DTLS, also("ZRTP", KNOWN_DTLS), PLAIN, "kinds"),
    ("booth_side.c", KNOWN_DTLS, also("STUN", KNOWN_DTLS), PLAIN, "every_first_octet"),
    ("booth_side.c", KNOWN_DROP,
     KNOWN_DROP + "\n    if (kind == SHAWM_KIND_ZRTP)\n        return to_tunnel(branch, booth, packet);", PLAIN, "kinds"),
    ("booth_side.c", KNOWN_MEDIA, also("TURN_CHANNEL", KNOWN_MEDIA), PLAIN, "kinds"),
    ("booth_side.c", KNOWN_MEDIA, also("TURN_CHANNEL", KNOWN_MEDIA), PLAIN, "channel_data_at_the_rate_of_media"),
    ("booth_side.c", KNOWN_MEDIA, also("OTHER", KNOWN_MEDIA), PLAIN, "every_first_octet"),
    ("booth_side.c", KNOWN_MEDIA, "if (packet->octets[0] >> 6 == 2 && packet->octets[0] < 191)\n", PLAIN, "kinds"),
    ("booth_side.c", SORTED, SORTED + "\n\n    if (packet->octets[0] == 79)\n        kind = SHAWM_KIND_OTHER;",
     PLAIN, "kinds"),
    ("booth_side.c", UNKNOWN_DTLS, "if (kind == SHAWM_KIND_RTP) {", PLAIN, "unknown_addresses"),
    ("booth_side.c", UNKNOWN_DTLS, "if (kind != SHAWM_KIND_DTLS && kind != SHAWM_KIND_RTP) {", PLAIN, "unknown_addresses"),
    ("booth_side.c", UNKNOWN_DTLS, "if (kind != SHAWM_KIND_DTLS && kind != SHAWM_KIND_TURN_CHANNEL) {",
     PLAIN, "channel_data_at_the_rate_of_media"),
    ("booth_side.c", UNKNOWN_DTLS, "if (kind == SHAWM_KIND_RTP)\n        return 0;\n    if (kind != SHAWM_KIND_DTLS) {",
     PLAIN, "unknown_addresses"),
    ("booth_side.c", KNOWN_DROP, KNOWN_DROP + "\n    if (kind != SHAWM_KIND_RTP)\n        booth->heard = now();",
     PLAIN, "rubbish_is_silence"),
    ("booth_side.c", KNOWN_DROP, KNOWN_DROP + "\n    if (kind == SHAWM_KIND_STUN)\n        booth->heard = now();",
     PLAIN, "rubbish_is_silence"),
    ("booth_side.c", REFUSED, "booth->heard = now();\n    " + REFUSED, PLAIN, "rubbish_is_silence"),
    ("booth_side.c", KNOWN_DROP, "drop(branch, kind, NULL, packet);", PLAIN, "names_in_the_log"),
    ("booth_side.c", UNKNOWN_DROP, "drop(branch, kind, NULL, packet);", PLAIN, "names_in_the_log"),
    ("booth_side.c", DROPPED, UNLIMITED, PLAIN, "channel_data_at_the_rate_of_media"),
    ("booth_side.c", DROPPED, UNLIMITED, PLAIN, "every_first_octet"),
    ("booth_side.c", DROPPED, DROPPED.replace("[kind]", "[0]"), PLAIN, "kinds"),
    ("booth_side.c", "reasons[kind], more);", "reasons[kind], \"\");", PLAIN, "every_first_octet"),
    ("booth_side.c", "[SHAWM_KIND_ZRTP] = \"ZRTP\",\n    [SHAWM_KIND_TURN_CHANNEL] =",
     "[SHAWM_KIND_TURN_CHANNEL] = \"ZRTP\",\n    [SHAWM_KIND_ZRTP] =", PLAIN, "kinds"),
    ("booth_side.c", "[SHAWM_KIND_STUN] = \"STUN\",", "[SHAWM_KIND_STUN] = NULL,", PLAIN, "unknown_addresses"),
    ("booth_side.c", BOUND, "if (reasons[kind] == NULL)", PLAIN, "kinds_of_a_later_library"),
    ("booth_side.c", BOUND, BOUND.replace(">=", ">"), PLAIN, "kinds_of_a_later_library"),
    ("booth_side.c", BOUND, "if (kind >= BRANCH_KINDS)\n        return;\n    if (reasons[kind] == NULL)",
     PLAIN, "kinds_of_a_later_library"),
]

# Where a packet from another port is told.
OTHER_PORT = "if ((booth = booths_by_endpoint(&branch->booths, (*listed)->endpoint)) == NULL)\n        return 1;"

LIST = [
    ("listed.c", "if (value < least[n] || value", "if (value < least[0] || value", PLAIN, "bad_lines"),
    ("listed.c", "value > 0x10FFFF || (value >= 0xD800 && value < 0xE000)", "value > 0x10FFFF", PLAIN, "bad_lines"),
    ("listed.c", "value > 0x10FFFF ||", "value > 0x1FFFFF ||", PLAIN, "bad_lines"),
    ("listed.c", "(value >= 0x7F && value < 0xA0)", "value == 0x7F", PLAIN, "bad_lines"),
    ("listed.c", "if (((unsigned char)text[i] & 0xC0) != 0x80)", "if ((unsigned char)text[i] < 0x80)", PLAIN, "bad_lines"),
    ("listed.c", "strlen(name) > LISTED_NAME", "strlen(name) > LISTED_NAME + 1", PLAIN, "bad_lines"),
    ("listed.c", "strlen(name) > LISTED_NAME", "strlen(name) > LISTED_NAME - 1", PLAIN, "good_lines"),
    ("listed.c", "return sum < least || sum > most ? -1 : 0;", "return *value < least || *value > most ? -1 : 0;",
     PLAIN, "bad_lines"),
    ("listed.c", "number(colon + 1, 5, 1, 65535, &value)", "number(colon + 1, 5, 0, 65535, &value)", PLAIN, "bad_lines"),
    ("listed.c", "    if (colon != NULL && colon != strrchr(word, ':'))\n        return host_six(word, listed->host);\n", "",
     PLAIN, "bad_lines"),
    ("list.c", "(a->port == b->port || a->port == 0 || b->port == 0)", "a->port == b->port", PLAIN, "bad_lines"),
    ("list.c", "if (list->all[i].endpoint == listed->endpoint)", "if (list->all[i].endpoint == listed->endpoint && i > 0)",
     PLAIN, "bad_lines"),
    ("list.c", "line[n++] = c == '\\0' ? '\\x7F' : (char)c;", "line[n++] = (char)c;", PLAIN, "bad_lines"),
    ("list.c", "        number++;\n", "        number += line[0] != '#';\n", PLAIN, "bad_lines"),
    ("list.c", "if (list->n == LISTED)", "if (list->n > LISTED)", CHECKED, "numbers_of_lines"),
    ("list.c", "if (wrong == NULL && !ferror(file))", "if (wrong == NULL)", PLAIN, "list_is_not_read"),
    ("list.c", "(list->all[i].port == 0 || list->all[i].port == port)", "port != 0", PLAIN, "one_port_alone"),
    ("listed.c", "0, 0, 0xFF, 0xFF };", "0, 0, 0, 0 };", PLAIN, "over_ipv6"),
    ("main.c", "branch.list = options->booths == NULL ? NULL : &list;", "branch.list = NULL;",
     PLAIN, "only_the_list_is_served"),
    ("booth_side.c", "!is_listed(branch, &packet->from, &listed))",
     "!is_listed(branch, &packet->from, &listed) && kind != SHAWM_KIND_DTLS)", PLAIN, "only_the_list_is_served"),
    ("booths.c", "listed == NULL ? ++booths->last : listed->endpoint", "++booths->last", PLAIN, "numbers_as_listed"),
    ("booths.c", "listed == NULL ?", "listed == NULL || listed->endpoint == 0 ?", PLAIN, "numbers_as_listed"),
    ("booths.c", "\"%s (%s)\", text, listed->name", "\"%s\", text", PLAIN, "names_in_the_log"),
    ("booth_side.c", OTHER_PORT, OTHER_PORT.replace("== NULL)", "== NULL || branch->list != NULL)"), PLAIN, "another_port"),
    ("booth_side.c", OTHER_PORT, OTHER_PORT + "\n    booth->address = *from;", PLAIN, "another_port"),
    ("log.c", "if (moment < limit->again) {", "if (moment < 0) {", PLAIN, "flood_of_strangers"),
    ("log.c", "limit->again = moment + LOG_PAUSE;", "limit->again = INT64_MAX;", PLAIN, "flood_of_strangers"),
]

# What has the page asked for.
CHANGED = "branch->status.changed = 1;"

STATUS = [
    ("booth_side.c", CHANGED, "", PLAIN, "page_of_every_state"),
    ("tunnel_side.c", "answer->kind != ANSWER_DELIVERY", "answer->kind == ANSWER_STORED", PLAIN, "page_of_every_state"),
    ("tunnel_side.c", "answer->kind != ANSWER_DELIVERY", "answer->kind == ANSWER_REMOVED", PLAIN, "page_of_every_state"),
    ("tunnel_side.c", "answer->kind != ANSWER_DELIVERY", "answer->kind != ANSWER_ENDED",
     PLAIN, "asked_when_it_can_have_changed"),
    ("lifetime.c", CHANGED + "\n    booths_remove(booth);", "booths_remove(booth);", PLAIN, "page_of_silence"),
    ("lifetime.c", CHANGED + "\n    tunnel_close", "(void)branch->status;\n    tunnel_close",
     PLAIN, "page_of_a_tunnel_that_ends"),
    ("lifetime.c", CHANGED + "\n    return 0;", "return 0;", PLAIN, "page_of_a_tunnel_that_ends"),
    ("lifetime.c", "int64_t shown = status_due(&branch->status);", "int64_t shown = INT64_MAX;", PLAIN, "kept_up"),
    ("status.h", "STATUS_PERIOD = 5000", "STATUS_PERIOD = 15000", PLAIN, "kept_up"),
    ("status.h", "STATUS_PERIOD = 5000", "STATUS_PERIOD = 15000", PLAIN, "written_again_by_the_clock"),
    ("status_side.c", "branch->tunnel.state == TUNNEL_CONNECTED", "branch->tunnel.state != TUNNEL_CLOSED",
     PLAIN, "page_of_every_state"),
    ("status_side.c", "if (now() < status_due(&branch->status))\n        return 0;",
     "if (branch->status.path == NULL)\n        return 0;", PLAIN, "asked_when_it_can_have_changed"),
    ("status_side.c", "if (branch->status.path != NULL && (!relay || branch_show(branch) != 0))",
     "if (branch->status.path != NULL && relay && branch_show(branch) != 0)", PLAIN, "page_of_a_lost_table"),
    ("main.c", "branch_show_last(&branch, relay);", "(void)relay;", PLAIN, "page_of_the_end"),
    ("status.c", "if (status->path == NULL)\n        return INT64_MAX;",
     "if (status->path == NULL && status->due > 0)\n        return INT64_MAX;", PLAIN, "not_asked_without_the_option"),
    ("status.c", "snprintf(new, sizeof new, \"%s%s\", path, new_behind);", "snprintf(new, sizeof new, \"%s\", path);",
     PLAIN, "whole_in_10000_reads"),
    ("status.c", "write_whole(fd, octets, n, now() + WRITE_LIMIT)", "(write(fd, octets, n) < 0 ? -1 : 0)",
     INTERRUPTED, "page_of_every_state"),
    ("status.c", "O_WRONLY | O_CREAT | O_EXCL | O_NOFOLLOW | O_CLOEXEC", "O_WRONLY | O_CREAT | O_TRUNC | O_CLOEXEC",
     PLAIN, "what_a_killed_run_left"),
    ("status.c", "errno == EEXIST && unlink(path) == 0", "errno == EISDIR && unlink(path) == 0",
     PLAIN, "what_a_killed_run_left"),
    ("status.c", "int fd = open(path, flags, 0644);", "int fd = open(path, flags, 0600);", PLAIN, "links_are_replaced"),
    ("status.c", "    unlink(new);\n", "", PLAIN, "folders_in_the_way"),
    ("status.c", "    if (done == 0)\n        done = replace(status->path, page, n);",
     "    done |= replace(status->path, page, n);", PLAIN, "folders_in_the_way"),
    ("status.c", "if (done != 0 && !status->failing)", "if (done != 0)", PLAIN, "cannot_be_written"),
    ("status.c", "status->failing = done != 0;", "status->failing |= done != 0;", PLAIN, "cannot_be_written"),
]

RELAY = [
    ("relay.c", "!(kinds & ONE(relay->frame[0]))", "kinds == 0",
     PLAIN, "relay_answers_wrongly"),
    ("relay.c", "count == 0 || count > RELAY_FRAME", "count == 0",
     PLAIN, "relay_answers_wrongly"),
    ("relay.c", "if (!shawm_is_refusal(count))\n        return 0;", "if (count != 0)\n        return 0;",
     PLAIN, "wrong_pages"),
    ("relay.c", "n <= 1 + SHAWM_PAGE_LIMIT", "n <= 2 + SHAWM_PAGE_LIMIT",
     PLAIN, "wrong_pages"),
    ("relay.c", "FIRST, ONE(ANSWER_PAGE), answer", "FIRST, ONE(ANSWER_PAGE) | ONE(ANSWER_REFUSED), answer",
     PLAIN, "wrong_pages"),
    ("refusal.c", "|| meanings[number] == NULL", "|| number == 0",
     PLAIN, "numbers_that_are_in_no_list"),
    ("child.c", "if (!ended(relay->pid, &status)) {", "if (!ended(relay->pid, &status) && status != 0) {",
     CHECKED, "relay_says_nothing"),
    ("main.c", "if (sources[RELAY].revents) {", "if (sources[RELAY].revents & POLLNVAL) {",
     PLAIN, "relay_is_killed"),
]

# What the demo compares, and what it must not show.
SHOW = """    say("key %02x%02x%02x%02x%02x%02x%02x%02x", record.octets[43], record.octets[44], record.octets[45],
        record.octets[46], record.octets[47], record.octets[48], record.octets[49], record.octets[50]);
    wipe(&record, sizeof record);"""
DEMONSTRATED = [
    ("booth_side.c", KNOWN_MEDIA, also("TURN_CHANNEL", KNOWN_MEDIA), PLAIN, DEMO),
    ("booth_side.c", "relay_packet(&branch->relay, booth->endpoint,",
     "relay_packet(&branch->relay, 3 - booth->endpoint,", PLAIN, DEMO),
    ("tunnel_side.c", "booths_by_endpoint(&branch->booths, answer->endpoint)",
     "booths_by_endpoint(&branch->booths, 3 - answer->endpoint)", PLAIN, DEMO),
    ("tunnel_side.c", "    wipe(&record, sizeof record);", SHOW, PLAIN, DEMO),
    ("status.c", "up ? \"up\\n\" : \"down\\n\"", "up ? \"down\\n\" : \"up\\n\"", PLAIN, DEMO),
    ("control/compare.c", "same ? \"match\" : \"differs\"", "same >= 0 ? \"match\" : \"differs\"", PLAIN, DEMO),
    ("../keydist", "*exported.fields(keys)", "*reversed(exported.fields(keys))", PLAIN, DEMO),
    ("../keydist", "media_keys(association.identifier,", "media_keys(next(iter(self.associations)),", PLAIN, DEMO),
    ("../keydist", "PROFILE = 0x0009", "PROFILE = 0x000A", PLAIN, DEMO),
    ("../keydist", "whole[:-1]", "whole", PLAIN, DEMO),
    ("../keydist", "return words != []", "return True", PLAIN, DEMO),
    ("../demo", "            expect(answer, \"match\", \"%s's keys\" % booth.name)\n", "", PLAIN, DEMO),
    ("../demo", "        self.steps.note(\"Look at both records",
     "        print(self.booths[1].keys[1][4:20])\n        self.steps.note(\"Look at both records", PLAIN, DEMO),
]

WRONG = TUNNEL + KEYS + SYSTEM_CALLS + BOOTHS + KINDS + LIST + STATUS + RELAY + DEMONSTRATED
