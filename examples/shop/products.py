#!/usr/bin/env python3
"""Makes the catalogue of the example shop: 500 products as a JSON array, the same ones at each run.

    examples/shop/products.py > products.json
    examples/shop/products.py --seed 7 --count 50

Nothing is read from outside. Numbers are whole, as the server wants them: prices in cents, ratings in tenths. Products
come in lines, of one brand and one price: each line is one thing in one to four materials and colours.
"""
import argparse
import json

MODULUS = 2147483647
STEP = 48271

BRANDS = {
    "Furniture": ["Aldermoor", "Dunholt", "Jarnvik", "Maison Élan", "Östervang"],
    "Storage": ["Aldermoor", "Dunholt", "Elmsworth", "Jarnvik"],
    "Office": ["Elmsworth", "Jarnvik", "Östervang"],
    "Lighting": ["Glimt", "Larkspur & Lowe", "Östervang"],
    "Kitchen": ["Bryce & Fenn", "Maristow", "Pottersgate"],
    "Textiles": ["Hollin", "Maison Élan", "Wetherby Mill"],
    "Bathroom": ["Hollin", "Maristow", "Wetherby Mill"],
    "Garden": ["Corvane", "Farrowby", "Jarnvik"],
    "Decoration": ["Glimt", "Maison Élan", "Pottersgate"],
}

SERIES = ("Alba Anker Arne Asta Birk Bolt Brae Calla Cove Dag Ebba Elin Esker Fell Fern Finn Frida Gale Grove Hazel "
          "Heath Ida Inga Ivo Juna Kaia Knot Lark Leif Linde Loch Luna Maren Mira Moss Nell Nora Odda Orla Otto Pell "
          "Pine Quay Rae Reed Rill Runa Saga Sven Tarn Thea Tide Toft Ulla Vale Vik Wick Wren Yara Zinnia").split()

# What a material is called, what is said of it, and the colours it comes in.
MATERIALS = {
    "oak": ("Oiled oak that darkens a little with the years.", ["natural", "black", "brown"]),
    "walnut": ("Walnut with a calm, straight grain.", ["brown"]),
    "ash": ("Pale ash, soaped and smooth to the hand.", ["natural", "white", "black"]),
    "beech": ("Steamed beech, hard enough for everyday use.", ["natural", "red", "green", "white"]),
    "pine": ("Solid pine from northern forests, with knots left in.", ["natural", "white", "blue"]),
    "bamboo": ("Bamboo, light in weight and slow to stain.", ["natural"]),
    "rattan": ("Rattan woven by hand over a light frame.", ["natural", "black"]),
    "steel": ("Powder-coated steel that does not chip easily.",
              ["black", "white", "green", "yellow", "red", "blue"]),
    "brass": ("Brushed brass without lacquer, so it ages as it is used.", ["gold"]),
    "glass": ("Mouth-blown glass; no two pieces are quite alike.", ["clear", "green", "blue", "pink"]),
    "stoneware": ("Reactive glaze over stoneware, safe in the dishwasher.",
                  ["white", "blue", "green", "grey", "beige"]),
    "porcelain": ("Thin porcelain that lets a little light through.", ["white", "pink", "blue"]),
    "terracotta": ("Unglazed terracotta that lets roots breathe.", ["orange", "beige"]),
    "cast iron": ("Cast iron that keeps its heat, seasoned with flax oil.", ["black", "red", "green"]),
    "enamel": ("Enamel on steel, as kitchens had it a century ago.", ["white", "blue", "yellow", "red"]),
    "linen": ("Stone-washed linen, cool in summer and soft from the first day.",
              ["white", "grey", "green", "beige", "pink"]),
    "cotton": ("Organic cotton with a dense weave.", ["white", "blue", "yellow", "grey", "pink", "green"]),
    "wool": ("Lambswool spun and woven in one mill.", ["grey", "green", "red", "beige", "blue", "yellow"]),
    "velvet": ("Cotton velvet with a deep, even pile.", ["green", "blue", "pink", "yellow"]),
    "leather": ("Vegetable-tanned leather that gets better with wear.", ["brown", "black"]),
    "paper": ("Folded paper over a thin wire frame.", ["white", "beige"]),
    "jute": ("Jute rope, plaited and sewn by hand.", ["natural", "black"]),
    "cork": ("Pressed cork: quiet, warm and waterproof.", ["natural"]),
}

SEATS = ["oak", "walnut", "ash", "beech"]
UPHOLSTERY = ["linen", "wool", "velvet", "leather"]
CLAY = ["stoneware", "porcelain"]

# What it is; its department and rooms; its picture; the least and greatest price in euros; materials; what is said.
KINDS = [
    ("dining chair", ["Furniture", "Dining room"], "chair", 69, 320, SEATS,
     ["A chair for long dinners, with a back that gives a little.", "Stacks four high when the guests have gone."]),
    ("armchair", ["Furniture", "Living room"], "armchair", 290, 1250, UPHOLSTERY,
     ["A deep armchair to read in.", "Its covers come off for washing."]),
    ("sofa", ["Furniture", "Living room"], "sofa", 590, 2900, UPHOLSTERY,
     ["Room for three, and for one who lies down.", "The seat cushions are filled with feathers around a firm core."]),
    ("dining table", ["Furniture", "Dining room"], "table", 390, 1900, SEATS,
     ["A table for six, or for eight who like each other.", "An extra leaf is stored under the top."]),
    ("coffee table", ["Furniture", "Living room"], "table", 119, 640, ["oak", "walnut", "steel", "rattan"],
     ["A low table for the middle of the room.", "A shelf below keeps magazines out of sight."]),
    ("bed frame", ["Furniture", "Bedroom"], "bed", 320, 1500, ["oak", "pine", "ash"],
     ["A bed with a low headboard and no creak.", "Slats are included; a mattress is not."]),
    ("bedside table", ["Furniture", "Bedroom"], "drawers", 59, 280, ["oak", "pine", "walnut"],
     ["Holds a lamp, a book and a glass of water.", "One drawer, which closes softly."]),
    ("bar stool", ["Furniture", "Kitchen"], "stool", 79, 290, ["beech", "steel", "oak"],
     ["A stool at counter height, with a rest for the feet.", "Slides under the worktop when it is not needed."]),
    ("bookcase", ["Storage", "Living room"], "shelf", 149, 890, ["oak", "pine", "steel"],
     ["Five shelves that carry heavy books without bending.", "Can be fixed to the wall; the screws are in the box."]),
    ("wall shelf", ["Storage", "Kitchen"], "shelf", 29, 140, ["oak", "pine", "steel", "bamboo"],
     ["A narrow shelf for cups, plants or spices.", "Hangs on two hidden brackets."]),
    ("chest of drawers", ["Storage", "Bedroom"], "drawers", 240, 980, ["oak", "pine", "walnut"],
     ["Four wide drawers on wooden runners.", "Dovetailed at the corners, front and back."]),
    ("storage basket", ["Storage", "Living room"], "basket", 15, 75, ["rattan", "jute"],
     ["A basket for blankets, toys or firewood.", "Two handles make it easy to carry."]),
    ("coat rack", ["Storage", "Hall"], "rack", 35, 210, ["oak", "steel", "beech"],
     ["Hooks for coats, and a ledge for hats and gloves.", "Wide enough for a family in winter."]),
    ("desk", ["Office", "Furniture"], "desk", 190, 980, ["oak", "walnut", "bamboo"],
     ["A desk for a small room, with a drawer for pens.", "Cables run through a slot at the back."]),
    ("office chair", ["Office", "Furniture"], "officechair", 149, 690, ["leather", "wool", "steel"],
     ["A chair that follows the back as it moves.", "Its height and tilt are set with one lever."]),
    ("desk organiser", ["Office", "Storage"], "basket", 12, 60, ["cork", "bamboo", "leather"],
     ["Keeps pens, notes and keys in one place.", "Two parts, which can be stacked."]),
    ("desk lamp", ["Lighting", "Office"], "desklamp", 49, 260, ["steel", "brass"],
     ["A lamp with a long arm and a warm, even light.", "The head turns, so the light goes where the work is."]),
    ("pendant lamp", ["Lighting", "Dining room"], "pendant", 59, 420, ["glass", "paper", "rattan", "steel"],
     ["Hangs low over a table and does not dazzle.", "Two metres of cable, which can be shortened."]),
    ("floor lamp", ["Lighting", "Living room"], "floorlamp", 99, 520, ["steel", "brass", "oak"],
     ["A lamp to stand beside a sofa or a reading chair.", "A foot switch turns it down in three steps."]),
    ("table lamp", ["Lighting", "Bedroom"], "tablelamp", 39, 240, ["stoneware", "glass", "paper"],
     ["A small lamp for a window sill or a bedside table.", "Its shade spreads a soft light."]),
    ("lantern", ["Lighting", "Garden"], "lantern", 19, 110, ["steel", "glass", "brass"],
     ["A lantern for a candle or a string of lights.", "A ring on top, to carry it or to hang it in a tree."]),
    ("mug", ["Kitchen", "Tableware"], "mug", 9, 29, CLAY + ["enamel"],
     ["A mug for coffee in the morning and soup at noon.", "Holds three decilitres and sits well in the hand."]),
    ("dinner plate", ["Kitchen", "Tableware"], "plate", 12, 39, CLAY,
     ["A wide plate with a low rim.", "Goes with bowls of the same glaze."]),
    ("serving bowl", ["Kitchen", "Tableware"], "bowl", 24, 95, CLAY + ["oak", "glass"],
     ["A bowl for salad, pasta or fruit.", "Large enough for six."]),
    ("teapot", ["Kitchen", "Tableware"], "kettle", 29, 120, CLAY + ["cast iron"],
     ["A pot for four cups of tea, with a strainer inside.", "Pours without a drip."]),
    ("carafe", ["Kitchen", "Tableware"], "carafe", 19, 68, ["glass"],
     ["A carafe for water or wine, with a glass as its lid.", "Narrow enough for the door of a fridge."]),
    ("frying pan", ["Kitchen", "Cookware"], "pan", 35, 160, ["cast iron", "steel"],
     ["Browns evenly and goes from the hob to the oven.", "Works on induction and on an open fire."]),
    ("casserole", ["Kitchen", "Cookware"], "casserole", 59, 290, ["cast iron", "enamel"],
     ["A heavy pot with a lid for stews and bread.", "Holds five litres."]),
    ("chopping board", ["Kitchen", "Cookware"], "board", 18, 95, ["oak", "walnut", "bamboo", "beech"],
     ["A thick board with a groove that catches juice.", "Turn it over to serve cheese on it."]),
    ("storage jar", ["Kitchen", "Storage"], "jar", 9, 38, ["glass", "stoneware", "enamel"],
     ["A jar for flour, tea or coffee beans.", "The lid of cork keeps it dry."]),
    ("cushion", ["Textiles", "Living room"], "cushion", 19, 95, ["linen", "velvet", "wool", "cotton"],
     ["A cushion with a hidden zip.", "The filling is included."]),
    ("throw blanket", ["Textiles", "Living room"], "blanket", 49, 240, ["wool", "cotton", "linen"],
     ["A blanket for the sofa and for cool evenings outside.", "Fringed on both short sides."]),
    ("duvet cover set", ["Textiles", "Bedroom"], "bed", 69, 290, ["linen", "cotton"],
     ["A cover and two pillow cases.", "Closes with buttons and needs no ironing."]),
    ("rug", ["Textiles", "Living room"], "rug", 89, 890, ["wool", "jute", "cotton"],
     ["A flat rug that lies still on wooden floors.", "Can be used on both sides."]),
    ("curtain", ["Textiles", "Bedroom"], "curtain", 39, 190, ["linen", "cotton", "velvet"],
     ["A curtain that softens the light without shutting it out.", "Comes as a pair, on a wide hem."]),
    ("bath towel", ["Bathroom", "Textiles"], "towel", 15, 69, ["cotton", "linen"],
     ["A towel that dries well and fast.", "A loop at one corner, for a hook."]),
    ("laundry basket", ["Bathroom", "Storage"], "basket", 35, 140, ["bamboo", "rattan", "jute"],
     ["A tall basket with a lid and a cotton bag inside.", "The bag goes into the machine with the rest."]),
    ("mirror", ["Bathroom", "Decoration"], "mirror", 49, 390, ["oak", "brass", "steel"],
     ["A round mirror in a thin frame.", "Hangs flat against the wall."]),
    ("soap dish", ["Bathroom", "Decoration"], "bowl", 8, 34, ["stoneware", "oak", "brass"],
     ["Keeps soap dry between two washes.", "Ridges let the water run off."]),
    ("watering can", ["Garden", "Plants"], "can", 19, 89, ["steel", "enamel", "brass"],
     ["A can with a long spout that reaches the back of the shelf.", "Holds two litres and pours slowly."]),
    ("plant pot", ["Garden", "Plants"], "pot", 9, 95, ["terracotta", "stoneware", "steel"],
     ["A pot for herbs on the sill or a fig by the door.", "A hole in its base and a saucer to match."]),
    ("garden chair", ["Garden", "Furniture"], "chair", 49, 290, ["steel", "oak", "rattan"],
     ["A chair that stays out all summer.", "Folds flat and hangs on a hook in winter."]),
    ("garden bench", ["Garden", "Furniture"], "bench", 149, 720, ["oak", "steel", "pine"],
     ["A bench for two under a tree.", "Rain runs off between its slats."]),
    ("pruning shears", ["Garden", "Tools"], "shears", 19, 79, ["steel"],
     ["Shears for roses and thin branches.", "The blade can be taken out and sharpened."]),
    ("vase", ["Decoration", "Living room"], "vase", 15, 140, ["glass", "stoneware", "porcelain", "terracotta"],
     ["A vase for one branch or a whole bunch.", "Heavy at the foot, so it does not tip."]),
    ("candle holder", ["Decoration", "Dining room"], "candle", 9, 68, ["brass", "stoneware", "glass", "cast iron"],
     ["A holder for a plain candle.", "Three of them make a table festive."]),
    ("wall clock", ["Decoration", "Kitchen"], "clock", 39, 210, ["oak", "steel", "walnut"],
     ["A clock with a quiet hand.", "Can be read from across the room."]),
    ("picture frame", ["Decoration", "Hall"], "frame", 12, 89, ["oak", "ash", "brass", "walnut"],
     ["A narrow frame for a print or a photograph.", "Stands on a shelf or hangs, upright or across."]),
]

# There are so many lines, and each has one product at least.
MOST = len(SERIES) * len(KINDS)
CLOSINGS = ["Made in small batches.", "Spare parts are kept for ten years.", "A customer favourite.",
            "New this season.", "Designed to be repaired.", "", "", "", ""]


class Draws:
    """Numbers that look drawn: each is the one before times a constant, modulo a prime."""

    def __init__(self, seed):
        self.last = seed

    def below(self, bound):
        self.last = self.last * STEP % MODULUS
        return self.last % bound

    def one_of(self, things):
        return things[self.below(len(things))]


def price(draws, least, most):
    """Cents: the lower part of the span more often than the upper one, and mostly just below a whole euro."""
    span = most - least + 1
    euros = least + min(draws.below(span), draws.below(span))
    return 100 * euros - draws.one_of([0, 5, 10, 10, 50])


def name_of(draws, noun, used):
    """The name of a line that none before it has."""
    name = f"{draws.one_of(SERIES)} {noun}"
    while name in used:
        name = f"{draws.one_of(SERIES)} {noun}"
    used.add(name)
    return name


def versions(draws, used):
    """The products of the next line."""
    noun, categories, picture, least, most, materials, sentences = KINDS[7 * len(used) % len(KINDS)]
    line, brand = name_of(draws, noun, used), draws.one_of(BRANDS[categories[0]])
    cents = price(draws, least, most)
    looks = [(material, colour) for material in materials for colour in MATERIALS[material][1]]
    for _ in range(min(1 + draws.below(4), len(looks))):
        material, colour = looks.pop(draws.below(len(looks)))
        parts = [*sentences, MATERIALS[material][0], draws.one_of(CLOSINGS)]
        yield {
            "name": f"{line} in {material}",
            "line": line,
            "brand": brand,
            "categories": categories,
            "colour": colour,
            "description": " ".join(part for part in parts if part),
            "price": cents,
            "rating": 50 - (draws.below(21) + draws.below(21)) // 2,
            "in_stock": draws.below(8) > 0,
            "picture": picture,
        }


def products(count, seed):
    draws, used, rows = Draws(seed), set(), []
    while len(rows) < count:
        rows.extend(versions(draws, used))
    return [{"id": number, **row} for number, row in enumerate(rows[:count], 1)]


def main():
    parser = argparse.ArgumentParser()
    parser.add_argument("--count", type=int, default=500)
    parser.add_argument("--seed", type=int, default=2024)
    asked = parser.parse_args()
    if not (0 <= asked.count <= MOST and 1 <= asked.seed < MODULUS):
        parser.error(f"--count is 0 to {MOST}, --seed 1 to {MODULUS - 1}")
    rows = [json.dumps(row, ensure_ascii=False) for row in products(asked.count, asked.seed)]
    print("[" + ",\n ".join(rows) + "]")


if __name__ == "__main__":
    main()
