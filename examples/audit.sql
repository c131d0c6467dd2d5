-- An audit of a registry's file, for the sqlite3 tool:
--
--     sqlite3 -readonly registry.db < examples/audit.sql
--
-- Each stored sum or copy (docs/TABLES.md) is computed once more from the rows that it is of. What is printed
-- behind the tool's own `ok` is a row whose column says otherwise, as table, name, column, what it says, what it
-- should say: no row, of a file that only tldreg has written.

PRAGMA integrity_check(1);
PRAGMA foreign_key_check;

-- a balance, of less than 2^63 cents: deposits, less what wasn't given back
WITH paid AS (
  SELECT account.ident, account.balance,
    coalesce(sum(CASE WHEN line.kind = 0 THEN line.cents WHEN line.refunded IS NULL THEN -line.cents ELSE 0 END), 0) AS cents
  FROM account LEFT JOIN line ON line.account = account.id GROUP BY account.id)
SELECT 'account', ident, 'balance', hex(balance), printf('%s%016X', CASE WHEN cents < 0 THEN 'FFFFFFFFFFFFFFFF' ELSE '0000000000000000' END, cents)
FROM paid WHERE hex(balance) <> printf('%s%016X', CASE WHEN cents < 0 THEN 'FFFFFFFFFFFFFFFF' ELSE '0000000000000000' END, cents);

-- messages that wait
SELECT 'account', ident, 'waiting', waiting, (SELECT count(*) FROM message WHERE message.account = account.id) AS there
FROM account WHERE waiting <> there;

-- domains that are held: by their sponsor, and by whomever a pending transfer brings them to
SELECT 'account', ident, 'held', held,
  (SELECT count(*) FROM domain WHERE domain.sponsor = account.id OR EXISTS
    (SELECT 1 FROM transfer WHERE transfer.domain = domain.id AND transfer.requester = account.id AND transfer.state = 0)) AS there
FROM account WHERE held <> there;

-- who sponsors a host: its domain's sponsor, and outside the zone who sponsors it there
SELECT 'host', host.name, 'sponsor', host.sponsor, coalesce(host.external_sponsor, domain.sponsor) AS owed
FROM host LEFT JOIN domain ON domain.name = host.above WHERE host.sponsor IS NOT owed;

-- when a contact's pending transfer is approved
SELECT 'contact', name, 'due', contact.due, (SELECT ac_date FROM transfer WHERE transfer.contact = contact.id AND state = 0) AS owed
FROM contact WHERE contact.due IS NOT owed;

-- when time next changes a domain: it expires, a pending transfer is approved, or it is purged at the end of
-- pendingDelete, which begins when it can't be redeemed any more and a restoration that was asked for isn't
-- reported; or the last moment, where that lies past it. Each period has the length that was in force when it began.
WITH ends AS (
  SELECT domain.*, strftime('%s', created, 'unixepoch', years || ' years',
      CASE WHEN strftime('%d', created, 'unixepoch') <> strftime('%d', created, 'unixepoch', years || ' years') THEN '-1 day' ELSE '+0 days' END) + 0 AS expiry,
    (SELECT ac_date FROM transfer WHERE transfer.domain = domain.id AND state = 0) AS completed,
    deleted + 86400 * coalesce((SELECT days_redemption FROM days WHERE starts <= deleted ORDER BY id DESC LIMIT 1), meta.days_redemption) AS redeemed,
    restore_requested + 86400 * coalesce((SELECT days_restore FROM days WHERE starts <= restore_requested ORDER BY id DESC LIMIT 1), meta.days_restore) AS restored
  FROM domain, meta),
begun AS (SELECT ends.*, max(redeemed, coalesce(restored, 0)) AS begins FROM ends),
dated AS (
  SELECT begun.*, min(7258118399, begins + 86400 * coalesce((SELECT days_pending_delete FROM days WHERE starts <= begins ORDER BY id DESC LIMIT 1), meta.days_pending_delete)) AS purged
  FROM begun, meta)
SELECT 'domain', name, 'due', due, CASE WHEN deleted IS NULL THEN min(7258118399, expiry, coalesce(completed, expiry)) ELSE purged END AS owed
FROM dated WHERE due <> owed;

-- the same, beside each contact and host that a domain names
SELECT 'link', link.id, 'due', link.due, domain.due AS owed
FROM link JOIN domain ON domain.id = link.domain WHERE link.due <> domain.due;

-- when the grace of a line ends: it has the length that was in force when it began
WITH graces AS (
  SELECT line.*, (SELECT CASE kind WHEN 1 THEN days_add WHEN 2 THEN days_renew WHEN 3 THEN days_auto_renew WHEN 4 THEN days_transfer END
    FROM (SELECT 0 AS id, 0 AS starts, days_add, days_renew, days_auto_renew, days_transfer FROM meta
      UNION ALL SELECT id, starts, days_add, days_renew, days_auto_renew, days_transfer FROM days)
    WHERE starts <= line.started ORDER BY id DESC LIMIT 1) AS length
  FROM line)
SELECT 'line', id, 'ends', ends, min(7258118399, started + 86400 * length) AS owed
FROM graces WHERE ends IS NOT owed;
