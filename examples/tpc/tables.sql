-- The tables of tpc.toml and order_line.toml for PostgreSQL, as `examples/load/ddl tpc.toml order_line.toml` makes them.
CREATE TABLE "region" (
    "id" bigint PRIMARY KEY,
    "name" text NOT NULL
);

CREATE TABLE "nation" (
    "id" bigint PRIMARY KEY,
    "name" text NOT NULL,
    "region" bigint NOT NULL,
    FOREIGN KEY ("region") REFERENCES "region" ("id") ON DELETE CASCADE
);
CREATE INDEX ON "nation" ("region");

CREATE TABLE "supplier" (
    "id" bigint PRIMARY KEY,
    "name" text NOT NULL,
    "nation" bigint NOT NULL,
    "balance" numeric(6, 2) NOT NULL,
    FOREIGN KEY ("nation") REFERENCES "nation" ("id") ON DELETE CASCADE
);
CREATE INDEX ON "supplier" ("nation");

CREATE TABLE "part" (
    "id" bigint PRIMARY KEY,
    "name" text NOT NULL,
    "maker" bigint NOT NULL,
    "sort" text NOT NULL,
    "measure" text NOT NULL
);

CREATE TABLE "partsupp" (
    "id" bigint PRIMARY KEY,
    "part" bigint NOT NULL,
    "supplier" bigint NOT NULL,
    "cost" numeric(5, 2) NOT NULL,
    "stock" bigint NOT NULL,
    UNIQUE ("id", "part", "supplier"),
    FOREIGN KEY ("part") REFERENCES "part" ("id") ON DELETE CASCADE,
    FOREIGN KEY ("supplier") REFERENCES "supplier" ("id") ON DELETE CASCADE
);
CREATE INDEX ON "partsupp" ("part");
CREATE INDEX ON "partsupp" ("supplier");

CREATE TABLE "customer" (
    "id" bigint PRIMARY KEY,
    "name" text NOT NULL,
    "nation" bigint NOT NULL,
    "phone" text,
    "branch" text NOT NULL,
    "balance" numeric(6, 2) NOT NULL,
    FOREIGN KEY ("nation") REFERENCES "nation" ("id") ON DELETE CASCADE
);
CREATE INDEX ON "customer" ("nation");

CREATE TABLE "orders" (
    "id" bigint PRIMARY KEY,
    "customer" bigint NOT NULL,
    "state" text NOT NULL,
    "placed" date NOT NULL,
    "urgency" bigint NOT NULL,
    "remark" text,
    UNIQUE ("id", "placed"),
    FOREIGN KEY ("customer") REFERENCES "customer" ("id") ON DELETE CASCADE
);
CREATE INDEX ON "orders" ("customer");

CREATE TABLE "lineitem" (
    "id" bigint PRIMARY KEY,
    "order_id" bigint NOT NULL,
    "offer" bigint NOT NULL,
    "part" bigint NOT NULL,
    "supplier" bigint NOT NULL,
    "quantity" bigint NOT NULL,
    "price" numeric(6, 2) NOT NULL,
    "discount" numeric(3, 2) NOT NULL,
    "sent" date,
    "way" text NOT NULL,
    "remark" text NOT NULL,
    FOREIGN KEY ("order_id") REFERENCES "orders" ("id") ON DELETE CASCADE,
    FOREIGN KEY ("offer") REFERENCES "partsupp" ("id") ON DELETE CASCADE,
    FOREIGN KEY ("offer", "part", "supplier") REFERENCES "partsupp" ("id", "part", "supplier") ON DELETE CASCADE
);
CREATE INDEX ON "lineitem" ("order_id");
CREATE INDEX ON "lineitem" ("offer");

CREATE TABLE "order_line" (
    "orders" bigint NOT NULL,
    "number" bigint NOT NULL,
    "quantity" bigint NOT NULL,
    "price" numeric(6, 2) NOT NULL,
    "goods" numeric(8, 2) NOT NULL,
    "discount" numeric(3, 2) NOT NULL,
    "tax" numeric(3, 2) NOT NULL,
    "rebate" numeric(9, 4) NOT NULL,
    "duty" numeric(9, 4) NOT NULL,
    "total" numeric(10, 4) NOT NULL,
    "placed" date NOT NULL,
    "promised" date NOT NULL,
    "sent" date NOT NULL,
    "received" date,
    "returned" text NOT NULL,
    "packing" text NOT NULL,
    "remark" text,
    PRIMARY KEY ("orders", "number"),
    FOREIGN KEY ("orders") REFERENCES "orders" ("id") ON DELETE CASCADE,
    FOREIGN KEY ("orders", "placed") REFERENCES "orders" ("id", "placed") ON DELETE CASCADE
);
