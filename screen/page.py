"""A status page, read by the proved reader in libshawm.so. Nothing here looks at a bit of the page."""

import collections
import ctypes

LIMIT = 153                # octets of the longest page
REFUSED = 0x80000000       # the top bit of an answer that is a refusal

Entry = collections.namedtuple("Entry", "place keyed endpoint")


class NotAPage(Exception):
    """The reader has refused the octets; number is the refusal's."""

    def __init__(self, number):
        super().__init__("refusal %d" % number)
        self.number = number


class Reader:
    """The three functions of include/shawm.h that read a page."""

    def __init__(self, path):
        library = ctypes.CDLL(path)
        page = [ctypes.c_char_p, ctypes.c_size_t]
        self.count = self.declared(library.shawm_page_count, page)
        self.entry = self.declared(library.shawm_page_entry, page + [ctypes.c_size_t])
        self.endpoint = self.declared(library.shawm_page_endpoint, page + [ctypes.c_size_t])

    @staticmethod
    def declared(function, arguments):
        function.argtypes, function.restype = arguments, ctypes.c_uint32
        return function

    @staticmethod
    def accepted(answer):
        if answer & REFUSED:
            raise NotAPage(answer & 0xFF)
        return answer

    def entries(self, octets):
        """The page's entries, the lowest place first. Raises NotAPage."""
        count = self.accepted(self.count(octets, len(octets)))
        return [self.nth(octets, number) for number in range(count)]

    def nth(self, octets, number):
        place, keyed = divmod(self.accepted(self.entry(octets, len(octets), number)), 2)
        return Entry(place, keyed == 1, self.endpoint(octets, len(octets), number))
