"""Digests of some contents, as b3sum 1.2.0 writes them. Some are of contents that the second reading would take minutes to hash."""
import random

ABC = b"6437b3ac38465133ffb63b75273a8db548c558465d79db03fd359c6cd5bd9d85"
EMPTY = b"af1349b9f5f9a1a6a0404dea36dcc9499bcb25c9adc112b7cc9a93cae41f3262"
ZEROS_OF_128_MIB = b"e66d34ca5a36dfa692903a66d66fd1d9c87bd553c32fbf7d3960542f4cda3257"
KEY = b"77686174732074686520456c7669736820776f726420666f7220667269656e64"
CONTEXT = b"BLAKE3 2019-12-27 16:29:52 test vectors context"
KEYED_ZEROS_OF_16_MIB = b"95ab86e4462518475a6e79eef9aa165c055355cd2a7f044b4172f0dae39c926b"
DERIVED_ZEROS_OF_16_MIB = b"f1da53a4e05429807d29deed9e0f9ed6a4b4c81d917a78a2c00bfbd7110faf77"
"""What `b3sum --keyed` writes with the bytes of KEY, and `b3sum --derive-key` with CONTEXT. The second reading has the same digests."""
RANDOM = {
    1048575: b"bdf7a5b10874bd236862ce6f3690c3c49309a65c6e3124164efda4b68b1f44cb",
    1048576: b"6298403b20c373d94402e6fce4cdf4f82d72074aed75bfbbd411ebc6c492374a",
    1048577: b"f47d79a27036de297e3cdda649a7242fe32fdb87525046b5d268f25e1f34c49f",
    16777215: b"e631b7450fac8c0a57e614e3f974597dd44c8eefe9988476c4a5496af117d008",
    16777216: b"5c6e438e4d5f8a5bd3259704c271142ff1119e7cc95993aeff55d22f613c555d",
    16777217: b"756424084d546a143820a3ec668eb3408b2457d3d501ac6a5818486a5b5d13ca",
    17301503: b"d41b32baecdba86961c0f16b41cbf6f310bf7a531344b1bf0080c2711c76866f",
    17301504: b"8a93dc77dac4a081845e427fe7fcdc7601429423df03a00c7298a7613e445eaa",
    17301505: b"b8face27baaab36c245d622debb4cae1149a3e91414747e6975b0b930e04d609",
    18087936: b"12bddbe9938e5d2ccac088ba6a8eae87d9c1fc7fc4f873ff31e15876aa01b2a8",
    33554432: b"7d67512ef0eecce83194e8bb05ea18411dbe7c143c0a542c0215c8fa500c97e7",
}
"""Those of `random_bytes`, by their lengths."""

PATTERNS = {
    16385: b"1dabe216be2578830263b049de1639f39f05a4da616b9b78c7a5e4e41662fd1f",
    65536: b"68d647e619a930e7b1082f74f334b0c65a315725569bdc123f0ee11881717bfe",
    65537: b"7c99f9840a73dfcb6e5bfe4ff6d1558acab7e015640790c26411818bdbe17eca",
    100000: b"d93c23eedaf165a7e0be908ba86f1a7a520d568d2d13cde787c8580c5c72cc54",
    131072: b"306baba93b1a393cbd35172837c98b0f59a41f64e1b2682ae102d8b2534b9e1c",
    1000000: b"5e82c663d164c54e4fcdfcd70e3ca464662228bdbad45cce2e0c2bff999064ef",
    3000000: b"4713babaefbc2271db70eee8ec588829c0e5aa250951e9a401d11db249256fa8",
}
"""Those of the input of the official test vectors, by its length."""


def random_bytes(length):
    """The same bytes for the same length."""
    return random.Random(length).randbytes(length)
