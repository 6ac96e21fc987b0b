-- Rules of `tools/audit` that are SQL over an office's file. The comment before a statement has the rule's name and the table whose rows the statement finds:
-- each result has a row's key and what is wrong with it. The next line says the rule in a sentence, before its first statement. office.py makes the views.

-- The tables.

-- notices_stand_in_one_table notices
-- No notice is in the table of version 1, which version 2 keeps empty.
SELECT notice, 'is in the table of version 1' FROM main.notices ORDER BY notice;
-- lines_come_from_batches office
-- There are no more lines than rows in the imported budget files.
SELECT version, printf('has %d lines, and its batches %d rows', lines, rows) FROM office,
(SELECT count(*) AS lines FROM lines), (SELECT coalesce(sum(rows), 0) AS rows FROM batches) WHERE lines > rows;

-- Money.

-- pots_add_up lines
-- For each line, free, reserved, contracted and paid, summed from joined rows, add up to its appropriation.
SELECT line, printf('free %d, reserved %d, contracted %d and paid %d add up to %d, and its appropriation is %d',
    free, reserved, contracted, paid, free + reserved + contracted + paid, appropriation)
FROM pots WHERE free + reserved + contracted + paid <> appropriation;
-- contracts_are_not_overdrawn contracts
-- No contract was cut, paid and released by more than was signed and raised.
SELECT contract, printf('signed %d and raised %d, but cut %d, paid %d and released %d', signed, raised, cut, paid, released)
FROM sums WHERE cut + paid + released > signed + raised;
-- contracts_end_settled contracts
-- A running contract has released nothing; an ended one has nothing outstanding, and says how it ended.
SELECT contract, 'when and how it ended don''t go together' FROM contracts WHERE (ended IS NULL) <> (how IS NULL)
UNION ALL SELECT contract, printf('it runs, and has released %d', released) FROM contracts WHERE ended IS NULL AND released <> 0
UNION ALL SELECT contract, printf('it ended, and %d is outstanding', signed + raised - cut - paid - released)
FROM sums WHERE ended IS NOT NULL AND signed + raised - cut - paid - released <> 0;
-- reservations_fit_their_lots lots
-- An undecided or awarded lot reserves the price of its last award, or its estimate without one; any other lot reserves nothing.
WITH due AS (SELECT notice, lot, CASE WHEN state IN ('undecided', 'awarded') THEN coalesce((SELECT price FROM awards AS a
    WHERE a.notice = l.notice AND a.lot = l.lot ORDER BY award DESC LIMIT 1), estimate) ELSE 0 END AS due FROM lots AS l)
SELECT notice, lot, printf('reserves %d in place of %d', reserved, due) FROM lots JOIN due USING (notice, lot) WHERE reserved <> due;

-- Notices, lots, awards and contracts.

-- notices_keep_their_time notices
-- A notice is published before its deadline; exactly if it is opened, it has a moment of opening, not before the deadline.
SELECT notice, 'published when its deadline had come' FROM notices WHERE published >= deadline
UNION ALL SELECT notice, 'opened before its deadline' FROM notices WHERE opened < deadline
UNION ALL SELECT notice, printf('is %s, and its moment of opening is %s', state, coalesce(text_of(opened), 'none'))
FROM notices WHERE (state = 'opened') <> (opened IS NOT NULL);
-- lots_fit_their_notices lots
-- All lots of a notice that receives tenders are undecided, and all lots of a cancelled notice are cancelled.
SELECT l.notice, lot, printf('is %s, and its notice %s', l.state, n.state) FROM lots AS l JOIN notices AS n ON n.notice = l.notice
WHERE (n.state = 'receiving' AND l.state <> 'undecided') OR (n.state = 'cancelled' AND l.state <> 'cancelled');
-- lots_fit_their_awards lots
-- A lot's last award is active if it is awarded, signed if contracted, else failed, or cancelled with the lot; earlier awards have failed.
SELECT l.notice, l.lot, printf('is %s, and its last award is %s', l.state, coalesce(a.state, 'none')) FROM lots AS l
LEFT JOIN awards AS a ON a.award = (SELECT max(award) FROM awards WHERE notice = l.notice AND lot = l.lot)
WHERE instr(CASE l.state WHEN 'awarded' THEN 'active' WHEN 'contracted' THEN 'signed' WHEN 'cancelled' THEN 'none failed cancelled'
    ELSE 'none failed' END, coalesce(a.state, 'none')) = 0;
-- lots_fit_their_awards awards
SELECT award, 'is ' || state || ', and its lot has a later award' FROM awards AS a
WHERE state <> 'failed' AND EXISTS (SELECT 1 FROM awards AS b WHERE b.notice = a.notice AND b.lot = a.lot AND b.award > a.award);
-- contracts_are_signed_awards awards
-- Exactly the signed awards have a contract, with the same number, lot and price, and the tenderer of the award's tender.
SELECT award, 'is ' || state || ', and a contract of its number ' || iif(contract IS NULL, 'doesn''t exist', 'exists')
FROM awards LEFT JOIN contracts ON contract = award WHERE (state = 'signed') <> (contract IS NOT NULL);
-- contracts_are_signed_awards contracts
SELECT contract, 'differs from its award' FROM contracts AS c LEFT JOIN awards AS a ON award = contract
LEFT JOIN envelopes AS e ON e.receipt = a.receipt WHERE (c.notice, c.lot, c.signed, c.tenderer) IS NOT (a.notice, a.lot, a.price, e.tenderer);
-- awards_keep_their_time awards
-- A lot is awarded after its notice is opened, and while tenders are in effect.
SELECT award, 'awarded before the opening, or when tenders were no longer in effect' FROM awards AS a JOIN notices AS n ON n.notice = a.notice
WHERE n.opened IS NULL OR a.moment < n.opened OR a.moment >= n.deadline + 86400 * n.validity;
-- contracts_keep_their_time contracts
-- A contract is signed after the standstill and while tenders are in effect; its entries come between its signing and its end.
SELECT contract, 'signed during the standstill, or when tenders were no longer in effect' FROM contracts AS c JOIN awards AS a ON award = contract
JOIN notices AS n ON n.notice = c.notice WHERE c.moment < a.moment + 86400 * n.standstill OR c.moment >= n.deadline + 86400 * n.validity
UNION ALL SELECT contract, 'ended before it was signed' FROM contracts WHERE ended < moment;
-- contracts_keep_their_time entries
SELECT e.contract, entry, 'isn''t between the signing and the end' FROM entries AS e JOIN contracts AS c ON c.contract = e.contract
WHERE e.moment < c.moment OR e.moment > c.ended;
-- lots_without_a_winner_have_no_offer lots
-- An unsuccessful lot has no tender that can win.
SELECT l.notice, l.lot, 'is unsuccessful, and tender ' || receipt || ' may win' FROM lots AS l
JOIN offers AS o ON o.notice = l.notice AND o.lot = l.lot WHERE l.state = 'unsuccessful' AND o.failed = 0;

-- Tenders and their securities.

-- late_tenders_stay_shut envelopes
-- A tender that came after the deadline was returned: it isn't sealed, and wasn't opened.
SELECT receipt, printf('is %s, and came at %s, after the deadline %s', e.state, text_of(moment), text_of(deadline))
FROM envelopes AS e JOIN notices AS n ON n.notice = e.notice WHERE e.state IN ('sealed', 'opened') AND moment > deadline;
-- tenders_have_their_fate envelopes
-- A tender is sealed while its notice receives, opened once that is, withdrawn if it came before the deadline, and returned if late or cancelled.
SELECT receipt, printf('is %s, and its notice %s', e.state, n.state) FROM envelopes AS e JOIN notices AS n ON n.notice = e.notice
WHERE NOT CASE e.state WHEN 'sealed' THEN n.state = 'receiving' WHEN 'opened' THEN n.state = 'opened' AND moment <= n.opened
    WHEN 'withdrawn' THEN moment < deadline ELSE n.state = 'cancelled' OR moment > deadline OR coalesce(moment >= n.opened, 0) END
UNION ALL SELECT receipt, 'came before its notice was published' FROM envelopes AS e JOIN notices AS n ON n.notice = e.notice
WHERE moment < published;
-- tenderers_have_one_tender_a_lot envelopes
-- A tenderer has at most one sealed or opened tender for a lot.
SELECT max(receipt), printf('%s has %d tenders for %s/%s that are sealed or opened', tenderer, count(*), notice, lot)
FROM envelopes WHERE state IN ('sealed', 'opened') GROUP BY notice, lot, tenderer HAVING count(*) > 1;
-- tenders_of_a_lot_follow_each_other envelopes
-- A tenderer submits for a lot only without a sealed tender for it: of those that came in time all but the last are withdrawn.
SELECT later, printf('came while tender %d of %s, which is %s, was sealed for the lot', receipt, tenderer, state) FROM
    (SELECT receipt, tenderer, e.state, lead(receipt) OVER (PARTITION BY e.notice, lot, tenderer ORDER BY receipt) AS later
    FROM envelopes AS e JOIN notices AS n ON n.notice = e.notice WHERE moment <= deadline AND moment < coalesce(n.opened, moment + 1))
WHERE later IS NOT NULL AND state <> 'withdrawn';
-- seals_fit_their_tenders envelopes
-- The bytes of a tender are kept exactly while it is sealed or opened.
SELECT e.receipt, printf('is %s, and its bytes are %s', state, iif(bytes IS NULL, 'not kept', 'kept'))
FROM envelopes AS e LEFT JOIN seals AS s ON s.receipt = e.receipt WHERE (state IN ('sealed', 'opened')) <> (bytes IS NOT NULL);
-- digests_are_of_the_bytes seals
-- A tender's digest is the SHA-256 of its stored bytes (FIPS 180-4), and its length is theirs.
SELECT s.receipt, 'the bytes aren''t of the digest, or not of the length, that the receipt has'
FROM seals AS s JOIN envelopes AS e ON e.receipt = s.receipt WHERE sha256(bytes) <> digest OR length(bytes) <> length;
-- examinations_fit_their_tenders envelopes
-- Only priced tenders are examined, and all before a lot is decided, except failed ones; quality is given if points decide, within its bounds.
SELECT receipt, 'was examined, and has no price' FROM envelopes WHERE responsive IS NOT NULL AND reading IS NOT 'priced'
UNION ALL SELECT receipt, 'its quality isn''t what its notice requires' FROM envelopes AS e JOIN notices AS n ON n.notice = e.notice
WHERE (quality IS NOT NULL) <> (weight > 0 AND responsive IS 1) OR weight + quality > 100
UNION ALL SELECT receipt, 'wasn''t examined, and its lot is decided' FROM envelopes AS e JOIN lots AS l ON l.notice = e.notice AND l.lot = e.lot
WHERE reading = 'priced' AND responsive IS NULL AND NOT failed AND (l.state IN ('awarded', 'contracted', 'unsuccessful')
    OR EXISTS (SELECT 1 FROM awards AS a WHERE a.notice = e.notice AND a.lot = e.lot));
-- failures_are_of_awards envelopes
-- A tender has failed only if an award of it has, or its notice allows late withdrawals; an award is of a tender for its lot.
SELECT receipt, iif(failed, 'has failed, and no award of it has, nor may it be withdrawn late', 'hasn''t failed, and an award of it has') FROM envelopes
WHERE failed <> (receipt IN (SELECT receipt FROM awards WHERE state = 'failed')) AND NOT (failed AND notice IN (SELECT notice FROM late_rules));
-- failures_are_of_awards awards
SELECT award, 'its tender is for another lot' FROM awards AS a JOIN envelopes AS e ON e.receipt = a.receipt
WHERE (a.notice, a.lot) <> (e.notice, e.lot);
-- securities_come_with_tenders securities
-- A security has the number of its first receipt; its tenders are of its tenderer and lot, all but the last withdrawn.
SELECT s.security, 'the tender of its number doesn''t carry it' FROM securities AS s LEFT JOIN envelopes AS e ON e.receipt = s.security
WHERE e.security IS NOT s.security;
-- securities_come_with_tenders envelopes
SELECT receipt, 'carries the security of another tenderer or lot' FROM envelopes AS e JOIN securities AS s ON s.security = e.security
WHERE (e.tenderer, e.notice, e.lot) <> (s.tenderer, s.notice, s.lot)
UNION ALL SELECT receipt, 'is ' || state || ', and a later tender carries its security' FROM
    (SELECT receipt, state, lead(receipt) OVER (PARTITION BY security ORDER BY receipt) AS later FROM envelopes WHERE security IS NOT NULL)
WHERE later IS NOT NULL AND state <> 'withdrawn';
-- securities_are_as_asked envelopes
-- A tender in time has a security of at least the amount that its lot requires, and none if the lot requires none.
SELECT receipt, printf('its lot asks for a security of %d, and it carries one of %d', l.security, coalesce(amount, 0)) FROM envelopes AS e
JOIN lots AS l ON l.notice = e.notice AND l.lot = e.lot JOIN notices AS n ON n.notice = e.notice LEFT JOIN securities AS s ON s.security = e.security
WHERE (e.state <> 'returned' OR (n.state = 'cancelled' AND moment <= deadline))
    AND (coalesce(amount, 0) < l.security OR (l.security = 0 AND e.security IS NOT NULL));
-- securities_have_their_fate securities
-- A security is forfeited if its tender failed, held while that is sealed or its lot undecided or awarded, otherwise returned.
WITH last AS (SELECT security, max(receipt) AS receipt FROM envelopes WHERE security IS NOT NULL GROUP BY security),
    fate AS (SELECT last.security, CASE WHEN e.failed THEN 'forfeited' WHEN e.state = 'sealed' OR (e.state = 'opened'
        AND l.state IN ('undecided', 'awarded')) THEN 'held' ELSE 'returned' END AS due
        FROM last JOIN envelopes AS e ON e.receipt = last.receipt JOIN lots AS l ON l.notice = e.notice AND l.lot = e.lot)
SELECT security, printf('is %s in place of %s', state, due) FROM securities JOIN fate USING (security) WHERE state <> due;
-- performances_are_as_asked contracts
-- A contract has a performance security of at least the amount that its notice requires, and none if the notice requires none.
SELECT contract, printf('its notice asks for a performance security of %d, and it has one of %d', n.performance, coalesce(amount, 0))
FROM contracts AS c JOIN notices AS n ON n.notice = c.notice LEFT JOIN performance AS p USING (contract)
WHERE coalesce(amount, 0) < n.performance OR (n.performance = 0 AND amount IS NOT NULL);
-- performances_have_their_fate performance
-- A performance security is held while its contract runs, forfeited if that ended by default, otherwise returned.
WITH fate AS (SELECT contract, CASE WHEN ended IS NULL THEN 'held' WHEN how = 'default' THEN 'forfeited' ELSE 'returned' END AS due FROM contracts)
SELECT contract, printf('is %s in place of %s', state, due) FROM performance JOIN fate USING (contract) WHERE state <> due;

-- Releases.

-- releases_are_counted notices
-- The notice's count of releases is one each for publication, opening, cancellation, amendment, award, lot without winner, failing, signing, entry, end.
WITH counted AS (SELECT notice, 1 + amendments + (state = 'opened')
    + (SELECT count(*) + count(*) FILTER (WHERE state = 'failed') FROM awards AS a WHERE a.notice = n.notice)
    + (SELECT count(*) FILTER (WHERE state = 'unsuccessful') + coalesce(max(state = 'cancelled'), 0) FROM lots AS l WHERE l.notice = n.notice)
    + (SELECT count(*) + count(ended) FROM contracts AS c WHERE c.notice = n.notice)
    + (SELECT count(*) FROM contracts AS c JOIN entries AS e ON e.contract = c.contract WHERE c.notice = n.notice) AS due FROM notices AS n)
SELECT notice, printf('counts %d releases, and its rows tell of %d', releases, due) FROM notices JOIN counted USING (notice) WHERE releases <> due;
-- releases_are_numbered releases
-- Each notice has exactly the releases from 1 to its count.
WITH RECURSIVE number(n) AS (SELECT 1 UNION ALL SELECT n + 1 FROM number WHERE n < (SELECT max(releases) FROM notices))
SELECT notice, n, 'is missing' FROM notices AS i JOIN number ON n <= releases
WHERE NOT EXISTS (SELECT 1 FROM releases AS r WHERE r.notice = i.notice AND seq = n)
UNION ALL SELECT r.notice, seq, 'is above the count of its notice' FROM releases AS r JOIN notices AS i ON i.notice = r.notice
WHERE seq > i.releases;
