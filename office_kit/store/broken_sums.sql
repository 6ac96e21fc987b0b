-- Changes of sums, for tests/store/test_broken.py, over which no line is shown that doesn't add up, and no command moves its money.

-- one more is free
UPDATE lines SET free = free + 1 WHERE line = '1000';
-- one less is free
UPDATE lines SET free = free - 1 WHERE line = '2000';
-- all is free
UPDATE lines SET free = appropriation;
-- one less was appropriated
UPDATE lines SET appropriation = appropriation - 1 WHERE line = '1000';
-- one was moved to another line
UPDATE lines SET free = free + CASE line WHEN '1000' THEN 1 ELSE -1 END;
-- one more is reserved
UPDATE lots SET reserved = reserved + 1 WHERE notice = 'R' AND lot = 'L2';
-- one more is reserved and one less free
UPDATE lots SET reserved = reserved + 1 WHERE notice = 'R' AND lot = 'L1';
UPDATE lines SET free = free - 1 WHERE line = '1000';
-- a lot is gone
DELETE FROM lots WHERE notice = 'A' AND lot = 'L2';
-- the lot of the contract is gone
DELETE FROM lots WHERE notice = 'C' AND lot = 'L1';
-- the contract is gone
DELETE FROM contracts;
-- one more was signed
UPDATE contracts SET signed = signed + 1;
-- one was released
UPDATE contracts SET released = released + 1;
-- the raise is gone
DELETE FROM entries WHERE kind = 'raise';
-- the payment is gone
DELETE FROM entries WHERE kind = 'payment';
-- the payment is a cut
UPDATE entries SET kind = 'cut' WHERE kind = 'payment';
-- one more was paid
UPDATE entries SET amount = amount + 1 WHERE kind = 'payment';
-- more was paid than was signed
UPDATE entries SET amount = 100000 WHERE kind = 'payment';
-- a line is gone
DELETE FROM lines WHERE line = '2000';
