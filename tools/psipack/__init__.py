"""Builds the packages of psi_oomd. Collects the files to install, and writes them as a Debian
package and as a tar archive.
"""
