-- The tables of shop.toml, card.toml and order_line.toml for PostgreSQL, as `examples/load/ddl shop.toml card.toml order_line.toml` makes them.
CREATE TABLE "customer" (
    "id" bigint PRIMARY KEY,
    "family" text NOT NULL,
    "city" text NOT NULL,
    "balance" numeric(6, 2) NOT NULL,
    UNIQUE ("id", "city")
);

CREATE TABLE "orders" (
    "id" bigint PRIMARY KEY,
    "customer" bigint NOT NULL,
    "city" text NOT NULL,
    "placed" date NOT NULL,
    "remark" text,
    UNIQUE ("id", "placed"),
    FOREIGN KEY ("customer") REFERENCES "customer" ("id") ON DELETE CASCADE,
    FOREIGN KEY ("customer", "city") REFERENCES "customer" ("id", "city") ON DELETE CASCADE
);
CREATE INDEX ON "orders" ("customer");

CREATE TABLE "card" (
    "customer" bigint NOT NULL,
    "number" bigint NOT NULL,
    "kind" text NOT NULL,
    "owed" bigint NOT NULL,
    PRIMARY KEY ("customer", "number"),
    FOREIGN KEY ("customer") REFERENCES "customer" ("id") ON DELETE CASCADE
);

CREATE TABLE "order_line" (
    "orders" bigint NOT NULL,
    "number" bigint NOT NULL,
    "product" text NOT NULL,
    "quantity" bigint NOT NULL,
    "price" numeric(5, 2) NOT NULL,
    "total" numeric(6, 2) NOT NULL,
    "placed" date NOT NULL,
    "sent" date NOT NULL,
    "received" date,
    "state" text NOT NULL,
    PRIMARY KEY ("orders", "number"),
    FOREIGN KEY ("orders") REFERENCES "orders" ("id") ON DELETE CASCADE,
    FOREIGN KEY ("orders", "placed") REFERENCES "orders" ("id", "placed") ON DELETE CASCADE
);
