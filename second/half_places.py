"""Marks and bodies with an exact half in one step, on which the answer hangs: each step, each sign, an even and an odd whole part, as far as they come up.

The assertions say what is special about the numbers.
"""

import frames
from bodies import MOON
from gen_third import together
from gen_unseen import AXIS, SIXTY
from halves import PART, SHIFT, away, by, kinds, shows
from mark import good_mark
from permanent import shift
from solid import part, stand
from units import plus, times

KINDS = ("+even", "-even", "+odd", "-odd")

# Marks (metres) whose shift hangs on a half in one step, in the order of KINDS. A has no +odd, and w is never positive and has no odd one.
MARKS = (
    ("P", ((-4_570_209, 1_505_474, -4_066_699), (5_430_232, 2_878_995, -1_384_151), (-4_224_380, 1_458_000, -4_440_716), (5_947_452, 1_981_152, -1_059_022))),
    ("e", ((3_591_599, -3_202_136, -4_066_699), (4_160_225, -3_529_877, 3_150_000), (-1_874_317, -3_609_125, -4_811_900), (4_832_432, 3_610_154, 1_818_731))),
    ("A", ((-2_707_280, 5_517_850, -1_384_151), (4_428_376, -600_253, -4_440_679), None, (3_745_350, 2_437_854, -4_440_673))),
    ("w", (None, (5_865_335, 694_063, -2_192_310), None, None)),
    ("x", ((3_170_648, 5_491_665, -25_441), (-3_186_321, 4_883_995, 2_569_928), (3_156_019, 5_250_210, -1_522_060), (-3_192_049, 4_849_741, 2_654_723))),
    ("y", ((5_458_035, 3_161_891, -450_027), (5_245_894, -3_188_800, 1_727_987), (5_233_269, 3_161_441, 1_611_530), (5_443_431, -3_163_274, -622_873))),
    ("z", ((5_926_820, -2_114_209, 318_990), (-4_723_201, 4_157_937, -318_990), (-5_834_233, 2_324_461, 501_192), (6_102_011, 1_485_180, -501_185))),
)

# The mark whose shift moved most from the old rule: three grains in x, one in z.
MOST = (4_685_551, 0, 4_211_622)

# Bodies (x and y; metres, kilometres) whose part of the tide at AXIS, for c and along-x at SIXTY, hangs on a half in one step, in the order of KINDS.
# What H and S round is never negative.
MOONS = (
    ("c", ((146_308_572, 368_640_948), (-246_181_823, 327_050_918), (160_172_142, 347_228_566), (-332_507_980, 128_192_424))),
    ("p", ((-365_319_105, 115_398_908), (-203_229_193, 352_003_287), (-224_343_504, 282_640_318), (177_747_953, 325_497_160))),
    ("H", ((-383_124_544, 1), None, (-378_852_964, 1), None)),
    ("rho", ((-330_338_871, 233_584_856), (0, 354_109_130), (-328_899_118, 232_566_797), (0, 384_310_626))),
    ("S", ((121_335_941, 385_823_702), None, (188_757_290, 326_937_217), None)),
    ("t", ((186_611_609, 323_220_789), (-183_839_412, 318_419_203), (203_651_150, 352_734_139), (-181_308_775, 314_036_011))),
    ("along-x", ((360_383_533, 35_386_640), (-192_660_666, 308_121_322), (364_652_380, 169_573_097), (-216_718_510, 284_167_877))),
    ("y", ((354_824_004, 204_857_734), (-344_598_125, 198_953_820), (-319_190_627, -184_284_794), (349_255_890, -201_642_982))),
    ("c3", ((148_332_954, 365_122_894), (-272_763_276, 272_763_276), (77_886_172, 343_759_601), (-160_592_799, 334_300_570))),
    ("p3", ((322_703_259, 186_312_813), (-342_981_598, -198_020_517), (-134_456_978, 329_726_748), (-321_535_431, 216_779_143))),
    ("v", ((-201_453_461, 299_159_284), (-100_654_898, 384_156_371), (306_502_256, 220_379_349), (-26_018_201, 376_381_862))),
    ("H3", ((-203_229_193, 352_003_287), None, (270_008_098, 267_906_836), None)),
    ("rho3", ((-201_255_534, 348_584_811), (200_257_019, 346_855_332), (-203_506_603, 352_483_777), (200_982_907, 348_112_607))),
    ("S3", ((-65_100_484, 398_577_222), None, (124_116_235, 390_080_701), None)),
    ("t3", ((-179_575_679, 311_034_200), (0, 350_555_753), (284_974_102, 284_974_103), (-148_599_222, 367_347_109))),
    ("along-x3", ((188_097_610, 303_304_467), (-215_893_754, 345_847_165), (10_063_388, 379_946_597), (-93_851_443, 365_923_640))),
    ("y3", ((335_569_164, 193_740_947), (-319_190_627, -184_284_794), (-347_831_613, 200_820_675), (338_806_530, -195_610_041))),
)
SUNS = (
    ("c", ((49_414_591, 142_657_893), (-143_534_573, 45_940_281), (96_734_217, 117_768_373), (-52_304_283, 136_617_702))),
    ("p", ((107_365_683, 101_593_245), (21_279_725, 149_743_031), (-132_392_016, 74_309_674), (60_014_196, 140_451_955))),
    ("H", ((-146_883_934, 1), None, (150_156_586, 1), None)),
    ("rho", ((-122_054_941, 86_305_877), (0, 146_731_369), (119_305_512, 84_361_737), (76_207_765, 131_995_721))),
    ("S", ((-133_746_929, 64_776_595), None, (-132_495_697, 64_170_595), None)),
    ("t", ((74_915_970, 129_758_267), (-73_074_001, 126_567_883), (75_298_438, 130_420_721), (-76_264_744, 132_094_412))),
    ("along-x", ((101_625_922, 111_672_739), (-66_572_839, 134_625_237), (139_156_013, 63_157_691), (-25_886_385, 147_173_482))),
    ("y", ((129_120_219, 74_547_593), (-129_676_720, 74_868_889), (126_691_775, 73_145_530), (-128_986_463, 74_470_369))),
)

# Moons with a half in y of degree two and one in y of degree three, which do not make up for each other: rounded as one sum, y is a grain more,
# more, less and less.
TWICE = ((314_009_446, 181_293_438), (-339_361_957, -195_930_717), (344_601_375, 198_955_696), (-304_963_617, -176_070_826))

# Marks with halves in the frame rows: an odd multiple of 25,000 m gives one in A of frames 1 and 2, an odd multiple of 6,250 m one in B of frame 2.
ROW_MARKS = tuple((157 * 25_000, -147 * 25_000, n * 6_250) for n in (541, -543))


def marks():
    for step, found in MARKS:
        for kind, mark in zip(KINDS, found):
            if mark:
                assert shows(SHIFT, step, kind, shift, mark), (step, kind)
                yield mark
    assert by(away, shift, MOST) == plus(shift(MOST), (3, 0, 1))
    yield MOST


def row_marks():
    """Halves of A in two components, one of each kind, and of B in the third: each on every axis, and its opposite."""
    for mark, kind in zip(ROW_MARKS, ("+even", "-odd")):
        assert good_mark(mark) and kinds(frames.row_a, 1, mark) == kinds(frames.row_a, 2, mark) == ["+odd", "-even", ""]
        assert kinds(frames.row_b, 2, mark) == ["", "", kind]
        for _ in range(3):
            mark = mark[1:] + mark[:1]
            yield mark
            yield times(mark, -1)


def half_bodies(label):
    """The table's marks and bodies."""
    for step, found in (MOONS, SUNS)[label]:
        mark = SIXTY if step in ("c", "along-x", "along-x3") else AXIS
        for kind, body in zip(KINDS, found):
            if body:
                assert shows(PART, step, kind, part, mark, label, (*body, 0)), (label, step, kind)
                yield mark, (*body, 0)


def twice():
    """TWICE at AXIS."""
    for (x, y), less in zip(TWICE, (-1, -1, 1, 1)):
        moon = (x, y, 0)
        found = dict(zip(PART, kinds(part, AXIS, MOON, moon)))
        assert found["y"] and found["y3"] and part(AXIS, MOON, moon) == plus(together(stand(AXIS, MOON, moon)), (0, less, 0))
        yield AXIS, moon
