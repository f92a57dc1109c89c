-- The services, by name: interface, node, where it was registered, how many sends name it, and whether bytes say which
-- node it is. ?1: the most rows.
-- needs: database/views.sql: node_service
-- makes: columns: service, others, interface, upid, ptr, registered, n, rests_on
SELECT service, others, interface, upid, ptr, registered, n, rests_on
FROM node_service ORDER BY service IS NULL, service, interface, upid, ptr LIMIT ?1
