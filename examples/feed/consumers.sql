-- Two consumers of the feed, in plain SQL for PostgreSQL 15 or later. Each is a table that triggers keep up to date while the
-- second database applies what the first one sends:
--
--   customer_version    all versions of the customers, each with the units in which it was valid (a slowly changing dimension, type 2)
--   sales               orders and their total by day and state (an aggregate that is kept, not computed again)

CREATE TABLE customer_version (
    id bigint NOT NULL,
    name text NOT NULL,
    city text NOT NULL,
    rating bigint NOT NULL,
    valid_from bigint NOT NULL,
    valid_to bigint, -- the first unit in which it isn't valid, or null while it is
    PRIMARY KEY (id, valid_from)
);

CREATE TABLE sales (
    placed date NOT NULL,
    state text NOT NULL,
    orders bigint NOT NULL,
    total numeric NOT NULL,
    PRIMARY KEY (placed, state)
);

-- The first database says in the table current_unit which unit it plays. Before its row arrives it is unit 0.
CREATE FUNCTION unit_now() RETURNS bigint LANGUAGE sql SET search_path = public AS
    'SELECT coalesce((SELECT unit FROM current_unit), 0)';

CREATE FUNCTION keep_versions() RETURNS trigger LANGUAGE plpgsql SET search_path = public AS $$
BEGIN
    IF TG_OP <> 'INSERT' THEN
        -- A version of this same unit was never valid at the end of one.
        DELETE FROM customer_version WHERE id = OLD.id AND valid_to IS NULL AND valid_from = unit_now();
        UPDATE customer_version SET valid_to = unit_now() WHERE id = OLD.id AND valid_to IS NULL;
    END IF;
    IF TG_OP <> 'DELETE' THEN
        INSERT INTO customer_version VALUES (NEW.id, NEW.name, NEW.city, NEW.rating, unit_now(), NULL);
    END IF;
    RETURN NULL;
END $$;

CREATE FUNCTION keep_sales() RETURNS trigger LANGUAGE plpgsql SET search_path = public AS $$
BEGIN
    IF TG_OP <> 'INSERT' THEN
        UPDATE sales SET orders = orders - 1, total = total - OLD.total WHERE placed = OLD.placed AND state = OLD.state;
        DELETE FROM sales WHERE placed = OLD.placed AND state = OLD.state AND orders = 0;
    END IF;
    IF TG_OP <> 'DELETE' THEN
        INSERT INTO sales VALUES (NEW.placed, NEW.state, 1, NEW.total)
            ON CONFLICT (placed, state) DO UPDATE SET orders = sales.orders + 1, total = sales.total + excluded.total;
    END IF;
    RETURN NULL;
END $$;

CREATE TRIGGER keep_versions AFTER INSERT OR UPDATE OR DELETE ON customer FOR EACH ROW EXECUTE FUNCTION keep_versions();
CREATE TRIGGER keep_sales AFTER INSERT OR UPDATE OR DELETE ON orders FOR EACH ROW EXECUTE FUNCTION keep_sales();

-- Without this a trigger doesn't fire for rows that replication applies.
ALTER TABLE customer ENABLE ALWAYS TRIGGER keep_versions;
ALTER TABLE orders ENABLE ALWAYS TRIGGER keep_sales;
