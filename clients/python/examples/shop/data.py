"""The shop's tables, and 100,000 rows for them that are the same whenever they are made."""

from __future__ import annotations

from collections.abc import Iterable, Iterator, Sequence
from datetime import date, timedelta
from itertools import islice
from random import Random
from typing import TypeVar

CUSTOMERS, ORDERS, ROWS = 5_000, 20_000, 100_000
LINES_OF_AN_ORDER = [1, 1, 2, 2, 3, 3, 4, 5]

TABLES = {
    "customers": "id integer primary key, name text not null, email text not null, city text not null, joined date not null",
    "products": "id integer primary key, name text not null, category text not null, price integer not null",
    "orders": "id integer primary key, customer_id integer not null, date date not null, status text not null",
    "lines": "order_id integer not null, product_id integer not null, quantity integer not null, price integer not null, "
    "primary key (order_id, product_id)",
    "reviews": "id integer primary key, customer_id integer not null, product_id integer not null, date date not null, "
    "stars integer not null, text text not null, unique (customer_id, product_id)",
}
INDEXES = {
    "customers": ["email", "city"],
    "products": ["category"],
    "orders": ["customer_id"],
    "lines": ["product_id"],
    "reviews": ["product_id"],
}

FIRST_NAMES = (
    "Ada Adam Agnes Ahmed Aiko Alba Alice Amir Ana Anders Anna Anton Aroha Asha Astrid Ben Bianca Boris Bruno Camila Carla Chen Chiara Chloe Clara "
    "Daan Daniel Daria David Diego Dina Elena Elias Elif Ella Emil Emma Eva Fatima Felix Filip Finn Freya Gabriel Greta Hana Hannah Hugo Ibrahim Ida "
    "Ines Ingrid Irina Isabel Ivan Jakob Jana Jane Jin Johan Jonas Jose Julia Kai Karim Katarina Kenji Lara Laura Lea Leila Leo Liam Lina Linh Lucia "
    "Lukas Maja Malik Marek Maria Marta Mateo Max Mei Mia Mila Mina Moritz Nadia Nils Nina Noah Noor Olga Oliver Omar Oscar Paula Pavel Pedro Petra "
    "Priya Rafael Ravi Rosa Ruth Samir Sara Sofia Stefan Tara Theo Thomas Tomas Uma Vera Viktor Wanda Yara Yuki Yusuf Zara Zoe"
).split()
LAST_NAMES = (
    "Abe Ahmadi Alves Andersen Arslan Bakker Bauer Becker Berg Bianchi Blom Bose Brown Castro Chen Clark Cohen Costa Cruz Dahl Davies Diaz Dubois Evans "
    "Fischer Flores Fontana Garcia Gomez Green Gruber Gupta Haas Hall Hansen Haddad Hill Horvat Huang Ito Ivanov Jansen Jones Kaya Keller Khan Kim "
    "King Klein Kovacs Kumar Larsen Laurent Lee Lewis Li Lim Lopez Lund Maier Marino Martin Mayer Meyer Moreau Moretti Mori Muller Murphy Nagy Nguyen "
    "Nielsen Novak Okafor Olsen Ortiz Osman Park Patel Perez Petrov Popov Price Ramos Reyes Ricci Rivera Rossi Roy Ruiz Sato Schmidt Schulz Silva "
    "Singh Smit Smith Sousa Suzuki Tanaka Taylor Toth Tran Turner Varga Vega Visser Vogel Walker Wang Weber White Wolf Wood Wright Yamada Yang Zhang"
).split()
CITIES = (
    "Amsterdam,Athens,Auckland,Barcelona,Belgrade,Bergen,Berlin,Bern,Bogotá,Bologna,Bordeaux,Bratislava,Brno,Brussels,Bucharest,Budapest,Buenos Aires,"
    "Cape Town,Cardiff,Chicago,Copenhagen,Cork,Delhi,Denver,Dresden,Dublin,Edinburgh,Florence,Gdańsk,Geneva,Genoa,Ghent,Glasgow,Gothenburg,Graz,"
    "Hamburg,Hanoi,Helsinki,Istanbul,Kraków,Kyoto,Leeds,Leipzig,Lima,Lisbon,Ljubljana,London,Lyon,Madrid,Malmö,Marseille,Melbourne,Milan,Montreal,"
    "Munich,Nairobi,Naples,Nice,Osaka,Oslo,Oxford,Palermo,Paris,Perth,Porto,Prague,Quito,Riga,Rome,Rotterdam,Salzburg,Santiago,São Paulo,Seattle,"
    "Seoul,Seville,Singapore,Sofia,Stockholm,Sydney,Taipei,Tallinn,Tartu,Tokyo,Toronto,Toulouse,Trieste,Turin,Turku,Utrecht,Valencia,Vancouver,"
    "Venice,Verona,Vienna,Vilnius,Warsaw,Wellington,York,Zagreb,Zürich"
).split(",")
# of each category what it sells, and what that costs at least and at most, in cents
CATEGORIES = {
    "Books": ("Atlas,Cookbook,Dictionary,Field Guide,Notebook,Novel,Puzzle Book,Sketchbook,Songbook,Travel Guide", 600, 4500),
    "Garden": ("Bird Feeder,Flower Pot,Garden Hose,Hammock,Planter,Rake,Seed Box,Spade,Trowel,Watering Can", 400, 9000),
    "Kitchen": ("Bread Knife,Chopping Board,Coffee Grinder,Frying Pan,Kettle,Mixing Bowl,Peeler,Pepper Mill,Saucepan,Teapot", 500, 12000),
    "Lighting": ("Bedside Lamp,Candle Holder,Ceiling Lamp,Desk Lamp,Floor Lamp,Lantern,Night Light,Reading Light,String Lights,Torch", 700, 18000),
    "Music": ("Accordion,Bongo Drums,Flute,Guitar Strap,Harmonica,Metronome,Music Stand,Ocarina,Tambourine,Ukulele", 800, 25000),
    "Office": ("Bookend,Desk Tray,Drawing Board,Fountain Pen,Hole Punch,Ink Bottle,Paper Cutter,Pencil Case,Stapler,Wall Calendar", 300, 8000),
    "Outdoor": ("Backpack,Camping Stove,Compass,Cool Box,Headlamp,Picnic Blanket,Rain Jacket,Sleeping Bag,Tent,Water Bottle", 900, 28000),
    "Textiles": ("Apron,Bath Towel,Bed Sheet,Curtain,Cushion,Doormat,Pillow,Scarf,Tablecloth,Wool Blanket", 600, 14000),
    "Tools": ("Bench Vice,Chisel,Hammer,Hand Drill,Level,Pliers,Screwdriver Set,Spanner,Tape Measure,Wood Saw", 400, 15000),
    "Toys": ("Building Blocks,Card Game,Doll House,Jigsaw Puzzle,Kite,Marble Run,Rocking Horse,Spinning Top,Toy Train,Yo-Yo", 300, 11000),
}
MAKES = "Alder,Beacon,Cedar,Delta,Ember,Fjord,Grove,Harbour,Island,Juniper"
STATUSES = ["OPEN", "SENT", *["DELIVERED"] * 7, "RETURNED"]
OPENINGS = {
    1: ["Broke within a week.", "Not what the picture shows.", "I sent it back."],
    2: ["Less than I had hoped for.", "It works, but only just.", "Too flimsy for daily use."],
    3: ["Does what it should.", "Fair for the price.", "Neither good nor bad."],
    4: ["Well made.", "Better than my last one.", "A good buy with one small flaw."],
    5: ["I use it every day.", "Exactly right.", "I have ordered a second one."],
}
ENDINGS = [
    "It arrived on time.", "The parcel was late.", "The colour is darker than I thought.", "It is heavier than it looks.", "My sister wants one too.",
    "The instructions are hard to read.", "It was a present.", "I would buy it again.", "It could be a little larger.", "The packaging was simple.",
]

Row = tuple[object, ...]
Item = TypeVar("Item")


class Chance:
    """Random choices that are the same in each version of Python, which promises that only of `random()`."""

    def __init__(self, seed: int) -> None:
        self.random = Random(seed).random

    def below(self, end: int) -> int:
        return int(end * self.random())

    def one_of(self, items: Sequence[Item]) -> Item:
        return items[self.below(len(items))]

    def shuffled(self, items: Iterable[Item]) -> list[Item]:
        return sorted(items, key=lambda _: self.random())

    def date(self) -> str:
        return (date(2023, 1, 1) + timedelta(days=self.below(1_000))).isoformat()


def make_customers(chance: Chance) -> Iterator[Row]:
    for number in range(1, CUSTOMERS + 1):
        first, last = chance.one_of(FIRST_NAMES), chance.one_of(LAST_NAMES)
        yield number, f"{first} {last}", f"{first}.{last}.{number}@example.org".lower(), chance.one_of(CITIES), chance.date()


def make_products(chance: Chance) -> Iterator[Row]:
    names = [(make, thing, category) for category, (things, _, _) in CATEGORIES.items() for thing in things.split(",") for make in MAKES.split(",")]
    for number, (make, thing, category) in enumerate(chance.shuffled(names), 1):
        _, least, most = CATEGORIES[category]
        yield number, f"{make} {thing}", category, least + 50 * chance.below((most - least) // 50) - 1


def make_orders(chance: Chance) -> Iterator[Row]:
    for number in range(1, ORDERS + 1):
        yield number, 1 + chance.below(CUSTOMERS), chance.date(), chance.one_of(STATUSES)


def make_lines(chance: Chance, orders: list[Row], products: list[Row]) -> Iterator[Row]:
    """The lines of all orders. A product with a small number is bought more often."""
    for number, *_ in orders:
        bought = {int(len(products) * chance.random() ** 2) for _ in range(chance.one_of(LINES_OF_AN_ORDER))}
        for place in sorted(bought):
            product, *_, price = products[place]
            yield number, product, chance.one_of([1, 1, 1, 2, 3]), price


def make_reviews(chance: Chance, orders: list[Row], lines: list[Row]) -> Iterator[Row]:
    """Reviews of what was bought, at most one for each customer and product, in random order."""
    buyers = {number: customer for number, customer, *_ in orders}
    bought = sorted({(buyers[order], product) for order, product, *_ in lines})
    for number, (customer, product) in enumerate(chance.shuffled(bought), 1):
        stars = chance.one_of([1, 2, 3, 3, 4, 4, 4, 5, 5, 5])
        yield number, customer, product, chance.date(), stars, f"{chance.one_of(OPENINGS[stars])} {chance.one_of(ENDINGS)}"


def make_rows() -> dict[str, list[Row]]:
    """The rows of each table: so many reviews that there are 100,000 in all."""
    chance = Chance(41)
    customers, products, orders = list(make_customers(chance)), list(make_products(chance)), list(make_orders(chance))
    lines = list(make_lines(chance, orders, products))
    others = len(customers) + len(products) + len(orders) + len(lines)
    reviews = list(islice(make_reviews(chance, orders, lines), ROWS - others))
    return {"customers": customers, "products": products, "orders": orders, "lines": lines, "reviews": reviews}
