-- How many lines there are of small parts of one brand, sold from one region, by the region to which they went.
SELECT r1.r_name, count(*), sum(l_quantity)
FROM orders
JOIN customer ON c_id = o_customer
JOIN nation n1 ON n1.n_id = c_nation
JOIN region r1 ON r1.r_id = n1.n_region
JOIN clerk ON k_id = o_clerk
JOIN office ON f_id = k_office
JOIN line ON l_order = o_id
JOIN supply ON u_part = l_part AND u_supplier = l_supplier
JOIN part ON p_id = u_part
JOIN supplier ON s_id = u_supplier
JOIN nation n2 ON n2.n_id = s_nation
JOIN region r2 ON r2.r_id = n2.n_region
WHERE p_brand = 3 AND p_size = 28 AND r2.r_name = 'region 2'
GROUP BY r1.r_name
ORDER BY r1.r_name;
