<?php // WordPress: php wordpress.php HOST PORT USER PASSWORD.
[, $host, $port, $user, $password] = $argv;
define('DB_NAME', 'd'); define('DB_USER', $user); define('DB_PASSWORD', $password); define('DB_HOST', "$host:$port");
define('DB_CHARSET', 'utf8mb4'); define('DB_COLLATE', '');
define('WP_INSTALLING', true); define('WP_DEBUG', false);
define('ABSPATH', '/usr/share/wordpress/'); define('WP_CONTENT_DIR', '/usr/share/wordpress/wp-content'); define('WP_HTTP_BLOCK_EXTERNAL', true);
$table_prefix = "wp_$port" . "_";
$_SERVER['HTTP_HOST'] = 'localhost'; $_SERVER['REQUEST_METHOD'] = 'GET'; $_SERVER['SERVER_PROTOCOL'] = 'HTTP/1.1'; $_SERVER['REQUEST_URI'] = '/'; $_SERVER['PHP_SELF'] = '/index.php';
function wp_mail() { return true; }
require ABSPATH . 'wp-settings.php';
require ABSPATH . 'wp-admin/includes/upgrade.php';
wp_install('stacks', 'admin', 'a@example.org', false, '', 'secret');
echo get_option('blogname') === 'stacks' && count(get_posts()) > 0 ? "installed\n" : "not there\n";
